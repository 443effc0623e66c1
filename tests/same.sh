# same.sh: same NAME WANTED FOUND counts into passed and failed, and says what differs. Sourced in the folder that holds tests/.
passed=0
failed=0

same() {
    if [ "$2" = "$3" ]; then
        passed=$((passed + 1))
    else
        failed=$((failed + 1))
        printf '%s: wanted [%s], found [%s]\n' "$1" "$2" "$3"
    fi
}
