"""What `tools/package` is made of: it builds and packs what a user installs."""
