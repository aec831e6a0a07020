# The pages of examples/ as cases. What is typed in a page stands behind ```sh, and is typed in one shell at the top of a copy of
# this repository; what is seen of it is indented by four.

pages='thermostat tanks motor boiler overload cascade platforms patch audit instructions'

# Makes a copy of this repository, as far as its pages need it, over tests/true-htl.
make_copy() {
	rm -rf "$1"
	mkdir -p "$1/crates/htl/out" "$1/crates/times/out"
	cp -R "$root/bin" "$root/tools" "$root/examples" "$1/"
	: >"$1/crates.txt"
	cp "$root/tests/true-htl" "$1/crates/htl/out/htl"
	cp "$root/tests/true-times" "$1/crates/times/out/times"
	chmod +x "$1/crates/htl/out/htl" "$1/crates/times/out/times"
	stamp_program "$1"
}

# Types what the page examples/$1.md has, and keeps what is printed. The page works in the folder out/$1 of the copy.
type_page() {
	make_copy "$work/pages"
	mkdir "$work/pages/blocks"
	awk -v folder="$work/pages/blocks" -f "$root/tests/blocks.awk" "$root/examples/$1.md"
	(cd "$work/pages" && for block in "$work"/pages/blocks/*.sh; do . "$block"; done) >"$work/pages/printed" 2>&1 </dev/null
}

# Types a page, and tells the pictures that it made, how many lines it shows, and those of them that weren't seen. A picture that
# stands beside the page has to be the one that was made.
page() {
	[ -d "$work/asked" ] || ask_all
	type_page "$1"
	(
		cd "$work/pages/out/$1" || exit
		for it in *.svg; do
			[ ! -f "$it" ] || echo "$it"
			for beside in "$root/examples/$it" "$root/docs/$it"; do [ ! -f "$beside" ] || cmp "$it" "$beside"; done
		done
		for it in ../../printed *; do case $it in *.object) ;; *) cat "$it" ;; esac; done >../../seen
	)
	awk '/^```/ { fenced = !fenced; next } !fenced && /^    / { print substr($0, 5) }' "$root/examples/$1.md" >"$work/pages/shown"
	grep -c . "$work/pages/shown"
	grep -v -x -F -f "$work/pages/seen" "$work/pages/shown"
	:
}

# What each page writes in the blocks that are typed: the folders that it makes, and, behind its name, each file behind `>`.
written() {
	for it in "$root"/examples/*.md "$root/docs/TUTORIAL.md"; do
		awk -v page="$(basename "$it" .md)" '
		/^```/ { typed = !typed && $0 == "```sh"; next }
		typed {
			for (i = 1; i < NF; i++) {
				if ($i == ">") print page "/" $(i + 1)
				if ($i == "-p") print $(i + 1)
			}
		}' "$it"
	done
}
