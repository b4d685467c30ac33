# What the scripts of tests/ share: building, and counting as report.c does it in C. Each runs in the project's directory, and sorts by bytes.
export LC_ALL=C
archive=target/staticlib/libpage.a
mkdir -p target/tests
passed=0
failed=0

# build PROGRAM WORD..: by gcc from files and further words for it, as C99, with no warning and with what watches memory.
build() {
  local program=$1
  shift
  gcc -std=c99 -pedantic -g -O1 -Wall -Wextra -Werror -fsanitize=address,undefined -fno-sanitize-recover=all -o "target/tests/$program" "$@"
}

# fails NAME: one that failed.
fails() {
  failed=$((failed + 1))
  echo "FAILED: $1"
}

# check NAME COMMAND..: one test. The command must end with 0; what it says is shown where it does not.
check() {
  local name=$1
  shift
  if "$@" >target/tests/check.log 2>&1; then
    passed=$((passed + 1))
  else
    fails "$name"
    head -n 20 target/tests/check.log
  fi
}

# counted NAME COMMAND..: a program's tests. It must end with 0, and its last line must be 'N passed, 0 failed' with N above 0.
counted() {
  local name=$1 status=0 last
  shift
  "$@" >"target/tests/$name.log" 2>&1 || status=$?
  cat "target/tests/$name.log"
  last=$(tail -n 1 "target/tests/$name.log")
  if [ "$status" -eq 0 ] && [[ $last =~ ^([1-9][0-9]*)\ passed,\ 0\ failed$ ]]; then
    passed=$((passed + BASH_REMATCH[1]))
  else
    fails "$name (status $status)"
  fi
}

# part FUNCTION WORD..: some tests that belong together. There must be one at least.
part() {
  local before=$((passed + failed))
  "$@"
  [ $((passed + failed)) -gt "$before" ] || fails "$1 ran no test"
}

# The last line. It ends with 0 where tests ran and none failed.
report() {
  echo "$passed passed, $failed failed"
  [ "$failed" -eq 0 ] && [ "$passed" -gt 0 ]
}
