# For the scripts that build the plain judge for the machine they run on: gcc and make, installed by apt if they are missing.
command -v gcc >/dev/null && command -v make >/dev/null || { apt-get update -qq && apt-get install -qqy gcc make libc6-dev; } >/dev/null
