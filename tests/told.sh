# Of tests/fake-htl, for an object whose first line is `// tells NAME`: what the true program answers about the example of that name, from
# $RUNS/NAME-listing.txt and $RUNS/NAME-report.txt. There the answers stand behind lines `> WORDS`, for `plan` with the modes.
case $1 in
show) exec cat "$RUNS/$name-listing.txt" ;;
plan) set -- plan "$2" "$(sed 's/^mode //' | tr '\n' ' ')" ;;
esac
words="$1${3:+ $3}"
WORDS=${words% } exec awk '/^> / { on = substr($0, 3) == ENVIRON["WORDS"]; next } on' "$RUNS/$name-report.txt"
