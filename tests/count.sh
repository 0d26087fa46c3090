# To be sourced: counts the tests of a suite.
#   count STATUS NAME     one test: passed where the status is 0; else it is named
#   counted               the suite's last line, 'N passed, M failed'; fails unless M is 0
passed=0 failed=0

count() { # STATUS NAME
    if [ "$1" -eq 0 ]; then
        passed=$((passed + 1))
    else
        echo "FAILED: $2"
        failed=$((failed + 1))
    fi
}

counted() {
    echo "$passed passed, $failed failed"
    [ "$failed" -eq 0 ]
}
