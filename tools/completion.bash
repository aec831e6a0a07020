# Completion of bash for bin/htl. In ~/.bashrc: . /path/to/tools/completion.bash

_htl() {
	local word=${COMP_WORDS[COMP_CWORD]} before=${COMP_WORDS[COMP_CWORD - 1]} i command=
	local commands="go compile jobs run code check show times plan slack audit patch bulk"
	COMPREPLY=()
	for ((i = 1; i < COMP_CWORD; i++)); do
		case ${COMP_WORDS[i]} in
		--explain | --unproved) ;;
		*) command=${command:-${COMP_WORDS[i]}} ;;
		esac
	done
	case $command in
	'')
		local answers=
		[ "$before" = --explain ] && answers="usage char number name-long long syntax twice unknown kind not-a-tree limit type deep too-long
			ill-formed hyperperiod starts paths positions unschedulable object magic version short index tag spelling trailing function ecode target action delay endless branch
			schedule late unfinished before order script form range overrun no-end after size shelf failed read write memory
			platform text shape log outside over task mode comms parent done"
		COMPREPLY=($(compgen -W "$commands --explain --unproved --each $answers --prove --svg --vcd --report --help --version" -- "$word"))
		;;
	compile)
		case $before in
		compile) COMPREPLY=($(compgen -W with -- "$word")) ;;
		with)
			compopt -o filenames 2>/dev/null
			local IFS=$'\n'
			COMPREPLY=($(compgen -d -- "$word") $(compgen -f -X '!*.toml' -- "$word" | while read -r i; do [ -d "$i" ] || printf '%s\n' "$i"; done))
			;;
		esac
		;;
	bulk) [ "$before" != bulk ] || COMPREPLY=($(compgen -W "1 2 4 8 16 32 64" -- "$word")) ;;
	go | jobs | run | code | check | show | times | plan | slack | audit | patch)
		[ "$before" = "$command" ] || [ "$command:${COMP_WORDS[COMP_CWORD - 2]}" = audit:audit ] || [ "$command:${COMP_WORDS[COMP_CWORD - 3]-}" = patch:patch ] || return
		compopt -o filenames 2>/dev/null
		local IFS=$'\n' pattern='*'
		[ "$command" = go ] && pattern='*.htl'
		COMPREPLY=($(compgen -d -- "$word") $(compgen -f -X "!$pattern" -- "$word" | while read -r i; do [ -d "$i" ] || printf '%s\n' "$i"; done))
		;;
	--each)
		[ "$before" = --each ] || return
		compopt -o filenames 2>/dev/null
		local IFS=$'\n'
		COMPREPLY=($(compgen -f -- "$word"))
		;;
	--report)
		[ "$before" = --report ] || [ "${COMP_WORDS[COMP_CWORD - 2]}" = --report ] || return
		compopt -o filenames 2>/dev/null
		local IFS=$'\n' pattern='*'
		[ "$before" = --report ] || pattern='*.htl'
		COMPREPLY=($(compgen -d -- "$word") $(compgen -f -X "!$pattern" -- "$word" | while read -r i; do [ -d "$i" ] || printf '%s\n' "$i"; done))
		;;
	--svg | --vcd)
		[ "$before" = "$command" ] || [ "$command:${COMP_WORDS[COMP_CWORD - 2]}" = --vcd:--vcd ] || return
		[ "$before" != --vcd ] || COMPREPLY=($(compgen -W "1s 100ms 10ms 1ms 100us 10us 1us 1ns" -- "$word"))
		compopt -o filenames 2>/dev/null
		local IFS=$'\n'
		COMPREPLY+=($(compgen -f -- "$word"))
		;;
	esac
}
complete -F _htl htl bin/htl ./bin/htl
