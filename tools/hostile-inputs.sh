# What the rows of tools/hostile read: sources, a platform file, a log, scripts, and the modes for plan.

write_inputs() {
	cat >"$room/doubling.htl" <<'TEXT'
program P {
  sensor int s period 10 init 0;
  communicator int u period 10 init 7;
  module M start m {
    task dbl input (int x) output (int y = x * 2) worst 4;
    mode m period 20 { invoke dbl input ((s, 0)) output ((u, 1)); }
  }
}
TEXT
	cat >"$room/sometimes.htl" <<'TEXT'
program P {
  communicator int u period 10 init 3;
  communicator int w period 10 init 0;
  sensor bool g period 10 init false;
  module M start m {
    abstract task plan input (int i) output (int o) worst 4;
    task fix input (int i) output (int o = i + 1) worst 2;
    mode m period 10 program Q {
      invoke plan input ((w, 0)) output ((u, 1));
      invoke fix input ((w, 0)) output ((w, 1));
    }
  }
}
program Q {
  module N start off {
    task fast input (int i) output (int o = i * 10) worst 3;
    mode off period 10 { switch (g, on); }
    mode on period 10 {
      invoke fast input ((w, 0)) output ((u, 1)) parent plan;
      switch (!g, off);
    }
  }
}
TEXT
	sed 's/i \* 10) worst 3/i * 20) worst 4/' "$room/sometimes.htl" >"$room/donor.htl"
	cat >"$room/two.htl" <<'TEXT'
program P {
  communicator int x period 2 init 1; communicator int y period 2 init 0; communicator int z period 10 init 0;
  module M start m {
    task a input (int i) output (int o = i + 1) worst 7; task b input (int i) output (int o = i * 5) worst 3;
    mode m period 10 { invoke a input ((x, 0)) output ((z, 1)); invoke b input ((x, 1)) output ((y, 3)); }
  }
}
TEXT
	sed 's/worst 7/worst 6/' "$room/two.htl" >"$room/six.htl"
	cat >"$room/rates.htl" <<'TEXT'
program P {
  communicator int u period 10 init 1; communicator int w period 10 init 0;
  module F start m {
    task a input (int i) output (int o = i + 1) worst 3;
    mode m period 10 { invoke a input ((u, 0)) output ((u, 1)); }
  }
  module G start m {
    task b input (int i) output (int o = i * 10) worst 9;
    mode m period 20 { invoke b input ((u, 0)) output ((w, 2)); }
  }
}
TEXT
	printf 'name = "fast"\n[worst]\n"M.a" = 6\n' >"$room/fast.toml"
	printf 'j 0 3 M.m.a\nj 3 6 M.m.b\nj 6 10 M.m.a\n' >"$room/log"
	echo 'end 10' >"$room/ending"
	printf 'at 0\nsense s 3\nat 10\nsense s 5\nend 10\n' >"$room/readings"
	printf 'at 10\nsense g 1\nend 20\n' >"$room/switching"
	printf 'mode M m\nmode N on\n' >"$room/modes"
	: >"$room/nothing"
}
