# What the commands recipe, tab and cost share. A command sets `command` to its name and `parts` to the folder of this file before it reads it, and defines
# `synopsis`, which writes how it is called, and `help`, which writes what --help says behind that.

# Says what is wrong with the arguments and how the command is called, and ends with 2.
misused() { # WORDS
  printf '%s: %s\n' "$command" "$1" >&2 || :
  synopsis >&2 || :
  exit 2
}

# Ends with 1 for something that the system refused.
refused() { # WORDS
  printf '%s: %s\n' "$command" "$1" >&2 || :
  exit 1
}

# Writes what --help says.
show_help() {
  { synopsis && help; } 2>/dev/null || refused 'standard output: cannot be written'
  exit 0
}

# Writes the version that all parts of Drunquill have in common.
show_version() {
  file=$parts/VERSION
  [ -f "$file" ] || file=$parts/../VERSION
  printf '%s (Drunquill) %s\n' "$command" "$(cat "$file")" 2>/dev/null || refused 'standard output: cannot be written'
  exit 0
}

# A folder of the command's own, `room`, which is gone when the command ends.
make_room() {
  room=$(mktemp -d)
  trap 'rm -rf "$room"' EXIT
  trap 'exit 129' HUP
  trap 'exit 130' INT
  trap 'exit 143' TERM
}

# Where standard error is closed it leads nowhere, so that no file takes its place.
(: >&2) || exec 2>/dev/null
