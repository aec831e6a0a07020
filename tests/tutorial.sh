# docs/TUTORIAL.md as cases. Its blocks are what a file reads from then on (behind ```htl NAME or ```script NAME, or with a number
# that line alone), what is typed (```sh), in one shell at the top of a copy of this repository, and what is seen of that (```text).
tutorial=$work/tutorial

# Does what the page says, up to its block of that number of what is seen, and prints what is seen there; with `all`
# up to its end.
follow() {
	[ -d "$work/asked" ] || (ask_all)
	follow_page "$1"
}

follow_page() {
	make_copy "$tutorial"
	mkdir "$tutorial/blocks"
	awk -v folder="$tutorial/blocks" -f "$root/tests/blocks.awk" "$root/docs/TUTORIAL.md"
	(cd "$tutorial" && follow_blocks "$1")
}

follow_blocks() {
	seen=0
	for block in "$tutorial"/blocks/*; do
		kind=${block##*/???.}
		case $kind in
		sh) . "$block" >"$tutorial/typed" 2>&1 </dev/null ;;
		text)
			seen=$((seen + 1))
			if [ "$seen" = "$1" ]; then
				cp "$block" "$work/seen"
				cat "$tutorial/typed"
				return
			fi
			;;
		*) write_block "$block" $(echo "$kind" | tr '.' ' ') ;;
		esac
	done
	[ "$1" = all ] && echo "$seen"
}

# Puts a block in the place of a file, or of one line of it: the block, its kind, the file's name without the kind, and the line.
write_block() {
	case $4 in
	'') cp "$1" "$3.$2" ;;
	*) { head -n $(($4 - 1)) "$3.$2" && cat "$1" && tail -n +$(($4 + 1)) "$3.$2"; } >"$tutorial/changed" && cp "$tutorial/changed" "$3.$2" ;;
	esac
}
