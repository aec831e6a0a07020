# Writes the blocks of a page, as docs/TUTORIAL.md has them, to the folder `folder`: each to a file of its own, whose name is
# its place in three digits, the word behind its fence, and what follows that, with dots for blanks.
/^```/ {
	if (file) {
		close(file)
		file = ""
	} else {
		sub(/^```/, "")
		gsub(/ /, ".")
		file = folder "/" sprintf("%03d", ++blocks) "." $0
		printf "" >file
	}
	next
}
file { print >file }
