# For the tools of developers: what they tell of themselves, and the refusal of words that choose nothing.

# Prints the comment at the head of the tool, where --help is asked for, and ends.
tell_help() {
	case ${1-} in
	--help | -h)
		sed -n '2,/^[^#]/s/^# \{0,1\}//p' "$0"
		exit 0
		;;
	esac
}

# Refuses words that choose no row: $1 the words, $2 the labels of all rows, a line each.
refuse_words() {
	{
		echo "tools/${0##*/}: no row has all of these words: $1; the rows are"
		printf '%s' "$2" | sed 's/^/    /'
	} >&2
	exit 2
}

# Whether a word is a number.
is_number() {
	case $1 in
	'' | *[!0-9]*) return 1 ;;
	esac
}
