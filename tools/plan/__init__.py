"""What `beamer-plan` does: it reads a capture as one has it, writes the script that one means, has the proved programs replay it, and tells
what they say."""
