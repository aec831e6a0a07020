# What is wrong with words that are none of the forms: sets `wrong`, of one line, and `right`, of another, the form that is meant.

# A word as it can be shown.
shown_word() { printf '%s' "$1" | LC_ALL=C tr '\000-\037\177' '[?*]' | cut -c 1-40; }

# The form of a word.
form_of() {
	case $1 in
	go) echo "go SOURCE < SCRIPT" ;;
	compile) echo "compile < SOURCE > OBJECT" ;;
	with) echo "compile with PLATFORM < SOURCE > OBJECT" ;;
	jobs | run | code) echo "$1 OBJECT < SCRIPT" ;;
	check | show | times) echo "$1 OBJECT" ;;
	plan) echo "plan OBJECT < MODES" ;;
	slack) echo "slack OBJECT MODULE.TASK" ;;
	audit) echo "audit OBJECT LOG < SCRIPT" ;;
	patch) echo "patch OBJECT MODULE.MODE DONOR > OBJECT" ;;
	bulk) echo "bulk N" ;;
	--prove | --version | --help) echo "$1" ;;
	--unproved | --explain) echo "$1 WORDS" ;;
	--each) echo "--each COMMANDS" ;;
	--svg) echo "--svg [LISTING] < RUN" ;;
	--vcd) echo "--vcd [UNIT] [LISTING] < RUN" ;;
	esac
}

# The word that is likest to $1, if few signs are to be changed.
likest_word() {
	printf '%s\n' go compile jobs run code check show times plan slack audit patch bulk --prove --each --unproved --explain --svg --vcd --version --help |
		WANTED=$1 LC_ALL=C awk -v most=$((${#1} < 5 ? 1 : 2)) -f "$tools/nearest.awk" | head -n 1
}

# $1 and $2 are the names of two parts that $3 should have, joined by a dot.
wrong_names() {
	case $3 in
	*.*.*.*) wrong="$1.$2 are two names, and $(shown_word "$3") has more" ;;
	*.*.*)
		case $2 in
		TASK) wrong="$1.$2 are two names, without the mode: ${3%%.*}.${3##*.}" ;;
		*) wrong="$1.$2 are two names, without the task: ${3%.*}" ;;
		esac
		;;
	*.*) wrong="$(shown_word "$3") isn't two names (letters, digits, _, at most 48, not reserved)" ;;
	*) wrong="$(shown_word "$3") is one name, and $1.$2 are two with a dot between them" ;;
	esac
}

# How many words there are behind the first, and how many there should be: $1 and $2; $3 what they are.
wrong_count() {
	case $1 in
	0) wrong="$word wants $3" ;;
	*) [ "$1" -lt "$2" ] && wrong="$word wants $3, and was given only the first" || wrong="$word wants $3, and was given $1 words" ;;
	esac
}

wrong_words() {
	word=${1-}
	right=$(form_of "$word")
	case $word in
	'')
		wrong="no word says what to do"
		right="go SOURCE < SCRIPT"
		return
		;;
	-h | -help | help) like=--help ;;
	-v | -V | -version | version) like=--version ;;
	*) like=$(likest_word "$word") ;;
	esac
	if ! are_text "$@"; then
		wrong="a word isn't text in UTF-8"
		return
	elif [ -z "$right" ] && [ -f "$word" ]; then
		wrong="$(shown_word "$word") is a file, and no word that says what to do with it"
		right="go SOURCE < SCRIPT"
		return
	elif [ -z "$right" ]; then
		wrong="there is no word $(shown_word "$word")${like:+; $like is meant?}"
		right=$(form_of "${like:-go}")
		return
	fi
	shift
	for it; do
		case $it in
		--*)
			wrong="an option stands in front of the words: bin/htl $it $word .."
			return
			;;
		esac
	done
	case $word:$# in
	compile:1)
		if [ "$1" = with ]; then
			wrong="with wants a platform file behind it"
			right=$(form_of with)
			return
		fi
		wrong="compile reads its source from standard input: bin/htl compile < $(shown_word "$1") > OBJECT"
		;;
	compile:*)
		wrong="the source of compile is standard input, and a platform file the only word"
		right=$(form_of with)
		;;
	go:2 | jobs:2 | run:2 | code:2) wrong="$word reads its script from standard input: bin/htl $word $(shown_word "$1") < $(shown_word "$2")" ;;
	audit:3) wrong="audit reads its script from standard input: bin/htl audit $(shown_word "$1") $(shown_word "$2") < $(shown_word "$3")" ;;
	plan:2) wrong="plan reads the modes from standard input: bin/htl plan $(shown_word "$1") < $(shown_word "$2")" ;;
	go:*) wrong_count $# 1 "a source" ;;
	jobs:* | run:* | code:* | plan:* | check:* | show:* | times:*) wrong_count $# 1 "an object" ;;
	slack:2) wrong_names MODULE TASK "$2" ;;
	slack:*) wrong_count $# 2 "an object and a task" ;;
	audit:*) wrong_count $# 2 "an object and a log" ;;
	patch:3) wrong_names MODULE MODE "$2" ;;
	patch:*) wrong_count $# 3 "an object, a mode and a donor" ;;
	bulk:1) wrong="bulk takes a number from 1 to 64, and $(shown_word "$1") is none" ;;
	bulk:*) wrong_count $# 1 "a number from 1 to 64" ;;
	*) wrong="$word stands in front of other words" ;;
	esac
}
