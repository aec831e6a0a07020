# Where a byte of a file is.

# Prints the line and the column of the byte at offset $2 of the file $1, both from 1, and the offset of its line.
# A column counts bytes.
line_and_column() {
	if [ "$2" -eq 0 ]; then
		echo 1 1 0
	else
		od -An -v -tu1 -N "$2" <"$1" | awk '
		{
			for (i = 1; i <= NF; i++) {
				at++
				if ($i == 10) {
					line++
					start = at
				}
			}
		}
		END { print line + 1, at - start + 1, start + 0 }'
	fi
}

# Whether the terminal takes UTF-8, by what the environment says.
takes_utf8() {
	case ${LC_ALL:-${LC_CTYPE:-${LANG-}}} in
	*[Uu][Tt][Ff]8* | *[Uu][Tt][Ff]-8*) echo 1 ;;
	*) echo 0 ;;
	esac
}

# Prints the line of the byte at offset $2 of the file $1, which begins at offset $3, and a caret below it.
excerpt() {
	from=$(($2 - 300))
	[ "$from" -gt "$3" ] || from=$3
	od -An -v -tu1 -j "$from" -N 700 <"$1" |
		LC_ALL=C awk -v first="$from" -v start="$3" -v at="$2" -v asked=700 -v utf8="$(takes_utf8)" -f "$tools/excerpt.awk"
}

# The slip that is usual at the byte $2 of the source $1, where its grammar ends.
usual_slip() {
	[ -s "$1" ] || return 0
	set -- "$1" $(line_and_column "$1" "$2")
	LC_ALL=C awk -v line="$2" -v column="$3" -f "$tools/slips.awk" <"$1" 2>/dev/null | sed 's/^/    /'
}
