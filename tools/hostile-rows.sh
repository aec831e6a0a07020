# The rows of tools/hostile, and what they write where nothing fails.

write_outputs() {
	cat >"$room/doubled" <<'TEXT'
v 0 s 3
v 0 u 7
m 0 M m
j 0 4 M.m.dbl
d 4 M.m.dbl
v 10 s 5
v 10 u 6
end 10 jobs 1 e 10 s 2
TEXT
	cat >"$room/instructions" <<'TEXT'
e 0 0 enter M.m
e 0 1 future 10 write 5
e 0 2 future 0 read 7
e 0 3 future 20 switch 10
e 0 4 return
e 0 7 call read M.m.dbl 0
e 0 8 release M.m.dbl
e 0 9 return
v 0 s 3
v 0 u 7
m 0 M m
j 0 4 M.m.dbl
d 4 M.m.dbl
s 4 0:0 dispatch 0 until 4
s 4 0:1 end
e 10 5 call write M.m.dbl 0
e 10 6 return
v 10 s 5
v 10 u 6
end 10 jobs 1 e 10 s 2
TEXT
	cat >"$room/switched" <<'TEXT'
v 0 u 3
v 0 w 0
v 0 g 0
m 0 M m
m 0 N off
j 0 2 M.m.fix
d 2 M.m.fix
v 10 w 1
v 10 g 1
m 10 N on
j 10 13 N.on.fast
d 13 N.on.fast
j 13 15 M.m.fix
d 15 M.m.fix
v 20 u 10
v 20 w 2
end 20 jobs 3 e 54 s 6
TEXT
	printf 'j 0 3 N.on.fast\nd 3 N.on.fast\nj 3 5 M.m.fix\nd 5 M.m.fix\nplan 10 jobs 2 s 3\n' >"$room/planned"
	printf '%s\n' 'v 0 u 1' 'v 0 w 0' 'm 0 F m' 'm 0 G m' 'j 0 3 F.m.a' 'd 3 F.m.a' 'j 3 10 G.m.b' 'v 10 u 2' 'end 10 jobs 1 e 26 s 3' >"$room/rated"
	printf 'v 100000 s 99\nv 100000 c0 4950\nend 100000 jobs 200 e 1210 s 300\n' >"$room/generated"
	printf '%s\n' 'v 0 x 1' 'v 0 y 0' 'v 0 z 0' 'm 0 M m' 'v 6 y 5' 'v 10 z 2' 'audited 10 jobs 2 slices 3' >"$room/audited"
	printf '%s\n' 'slack M.dbl worst 4 greatest 10' 'overload 0 from 0 to 10 demand 11' 'S 0:0 dispatch 0 until 10' 'S 0:1 end' >"$room/raised"
}

# The outputs that are objects, from objects that are inputs. The patched one has another worst case and another factor; that
# for a platform is the object of the source with its worst case, but names it, and counts schedules apart from selections.
write_objects() {
	{
		head -c 153 "$room/sometimes.obj" && printf '\004'
		tail -c +155 "$room/sometimes.obj" | head -c 130 && printf '\024' && tail -c +286 "$room/sometimes.obj"
	} >"$room/patched"
	{
		printf 'HTLO\0\2\4fast'
		head -c "$(($(wc -c <"$room/six.obj") - 26))" "$room/six.obj" | tail -c +7
		printf '\0\0'
		tail -c 26 "$room/six.obj"
	} >"$room/named"
}

# Each row: the calls that fail, its input and its output, and its words.
rows() {
	row memory readings doubled go "$room/doubling.htl"
	row streams readings doubled go "$room/doubling.htl"
	row memory switching switched go "$room/sometimes.htl"
	row streams switching switched go "$room/sometimes.htl"
	row memory ending rated go "$room/rates.htl"
	row streams ending rated go "$room/rates.htl"
	row memory readings instructions code "$room/doubling.obj"
	row memory modes planned plan "$room/sometimes.obj"
	row memory nothing generated bulk 1
	row memory ending audited audit "$room/two.obj" "$room/log"
	row streams ending audited audit "$room/two.obj" "$room/log"
	row memory nothing patched patch "$room/sometimes.obj" M.m "$room/donor.obj"
	row streams nothing patched patch "$room/sometimes.obj" M.m "$room/donor.obj"
	row memory two.htl named compile with "$room/fast.toml"
	row streams two.htl named compile with "$room/fast.toml"
	row memory nothing raised slack "$room/doubling.obj" M.dbl
	row streams nothing raised slack "$room/doubling.obj" M.dbl
}
