"""What `./explain` is made of. docs/REFUSALS.md is the page that it reads."""
