"""What `./look` does: it looks into an office's file, and never changes it. docs/look.md says what each command shows."""
