# shellcheck shell=bash
# The test scripts use this file. Each check is counted, and 'finish' says the last line 'N passed, M failed'.
passed=0
failed=0

# A program is tampered with where it is compiled with these words (c/tamper.c).
# shellcheck disable=SC2034 # The test scripts use it.
tamper_words=('-Wl,--wrap=verdict,--wrap=replay,--wrap=run_start,--wrap=run_release,--wrap=run_tick,--wrap=run_end' c/tamper.c)

# Lines that match this expression as a whole are left out of what a command says before it is compared.
left_out=

# check WHAT STATUS PATTERN COMMAND..: checks that the command exits with STATUS, and that all it says matches PATTERN.
check() {
  local what=$1 status=$2 pattern=$3 said got
  shift 3
  said=$("$@" 2>&1)
  got=$?
  if [ -n "$left_out" ]; then
    said=$(grep -avxE "$left_out" <<< "$said")
  fi
  # shellcheck disable=SC2053 # The right side is a pattern, and not a text.
  if [ "$got" -eq "$status" ] && [[ $said == $pattern ]]; then
    passed=$((passed + 1))
  else
    failed=$((failed + 1))
    printf '%s: wanted status %s and "%s", got %s and:\n%s\n' "$what" "$status" "$pattern" "$got" "$said"
  fi
}

# need WHAT COMMAND..: makes a check without which the others are worth nothing, and ends the test where it fails.
need() {
  local failed_before=$failed
  check "$1" 0 '*' "${@:2}"
  if [ "$failed" -gt "$failed_before" ]; then
    finish
    exit 1
  fi
}

# add_test NAME COMMAND..: runs a test of its own, whose last line is 'N passed, M failed', and adds its counts to ours.
add_test() {
  local name=$1 said status
  shift
  said=$("$@")
  status=$?
  printf '%s\n' "$said"
  if [[ ${said##*$'\n'} =~ ^([0-9]+)\ passed,\ ([0-9]+)\ failed$ ]]; then
    passed=$((passed + BASH_REMATCH[1]))
    failed=$((failed + BASH_REMATCH[2]))
    if [ "$status" -ne 0 ] && [ "${BASH_REMATCH[2]}" -eq 0 ]; then
      failed=$((failed + 1))
    fi
  else
    echo "$name: the test ended with status $status and without its last line"
    failed=$((failed + 1))
  fi
}

finish() {
  echo "$passed passed, $failed failed"
  [ "$failed" -eq 0 ]
}

# macro NAME: prints the number that a macro of jyrmekko.h stands for. The test runs in the folder above include/.
macro() {
  # shellcheck disable=SC2086 # CC may have several words.
  echo "$1" | ${CC:-cc} -E -P -include include/jyrmekko.h -x c - | tail -n 1
}

# bytes HEX..: writes these bytes to standard output.
bytes() {
  local all
  printf -v all '\\x%s' "$@"
  # shellcheck disable=SC2059 # The bytes are the format.
  [ $# -eq 0 ] || printf "$all"
}
