# The files that the words name, as they were written.
case $form in
file | files | donor) shown=$2 ;;
*) shown="(standard input)" ;;
esac
platform= second=
asked=$1 given=$shown task=${3-}
if [ "$form" = files ]; then
	job_log=$3
	second=$3
fi
[ "$form" != platform ] || platform=$3
if [ "$form" = donor ]; then
	. "$tools/patch.sh"
	second=$4
fi
[ "$form" != wrong ] || wrong_words "$@"

# Whether a file can be read as an object.
is_fetched() { [ ! -d "$1" ] && [ -r "$1" ] && [ "$(head -c 16777217 <"$1" | wc -c)" -le 16777216 ]; } 2>/dev/null

# The first file of one or two that the shelf doesn't give.
unfetched() { [ -n "$second" ] && is_fetched "$shown" && echo "$second" || echo "$shown"; }
