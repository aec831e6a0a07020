# Judges words before any build. Sets `form`: wrong, file (the second word is a file), files (the second and the third are),
# donor (the second and the fourth are), platform (the third word is one), or plain; and `input`: script, modes, source, or none
# where standard input is not read. The number of `bulk`, the task of `slack` and the mode of `patch` are judged too.

# Whether the bytes of the words are UTF-8: htl takes no others for text. (Some awks fail where an output is closed.)
are_text() {
	printf '%s\n' "$@" | od -An -v -tu1 | LC_ALL=C awk '
	{
		for (i = 1; i <= NF; i++) {
			b = $i + 0
			if (left) {
				if (b < low || b > high) exit bad = 1
				left--
				low = 128
				high = 191
				continue
			}
			low = 128
			high = 191
			if (b < 128) continue
			if (b < 194 || b > 244) exit bad = 1
			left = b < 224 ? 1 : b < 240 ? 2 : 3
			if (b == 224) low = 160
			if (b == 237) high = 159
			if (b == 240) low = 144
			if (b == 244) high = 143
		}
	}
	END { exit bad || left }' >/dev/null 2>&1
}

# Whether a word is a name: an identifier of 1 to 48 bytes that isn't reserved.
is_name() (
	LC_ALL=C
	case $1 in
	'' | [!A-Za-z_]* | *[!A-Za-z0-9_]*) exit 1 ;;
	program | communicator | sensor | module | start | abstract | task | input | output | worst | mode) exit 1 ;;
	period | port | invoke | parent | switch | init | int | bool | true | false | if) exit 1 ;;
	esac
	[ ${#1} -le 48 ]
)

# Whether a word is two names, joined by one dot.
are_joined() {
	case $1 in
	*.*) is_name "${1%%.*}" && is_name "${1#*.}" ;;
	*) false ;;
	esac
}

judge_words() {
	form=wrong input=none
	case $#:${1-} in
	2:go | 2:jobs | 2:run | 2:code) form=file input=script ;;
	2:plan) form=file input=modes ;;
	2:check | 2:show | 2:times) form=file ;;
	1:compile) form=plain input=source ;;
	2:bulk) case $2 in [1-9] | [1-5][0-9] | 6[0-4]) form=plain ;; esac ;;
	3:slack) ! are_joined "$3" || form=file ;;
	4:patch) ! are_joined "$3" || form=donor ;;
	3:audit) form=files input=script ;;
	3:compile) [ "$2" != with ] || form=platform input=source ;;
	esac
	[ "$form" = wrong ] || are_text "$@" || form=wrong
}

# An object is bytes, which no terminal is given: $1 is the file that holds it.
keep_from_terminal() {
	fail "the object has $(($(wc -c <"$1"))) bytes, which aren't written to a terminal: > OBJECT behind the words keeps them in a file"
}
