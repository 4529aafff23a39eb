# Sourced by the scripts beside it: a folder to work in, the original's sources in it, our static libraries and programs,
# and the harnesses. The folder is gone at the end.
set -eu
here=$(cd "$(dirname "$0")" && pwd)
root=$(dirname "$here")
work=$(mktemp -d)
trap 'rm -rf "$work"' EXIT
cp "$here"/*.rs "$work"

# The folder that has rigflow-core/ and rigflow-client/, under the name by which the programs know it.
original() {
  [ -d "$1/rigflow-core" ] && [ -d "$1/rigflow-client" ] || { echo "SOURCES is the folder that has rigflow-core/ and rigflow-client/, not '$1'" >&2; exit 2; }
  ln -s "$(cd "$1" && pwd)" "$work/rigflow"
}

# What rt said that tells most: its first errors, else its last lines.
said() {
  if grep -q 'error:' "$work/log"; then
    grep -m 5 'error:' "$work/log" | cut -c1-400
  else
    tail -n 5 "$work/log"
  fi
}

# Proves crates and writes their static libraries. A crate that others stand on has a crate beside it for that, NAME_c, whose
# library goes by the first one's name.
libraries() {
  mkdir -p "$work/staticlib"
  for crate in "$@"; do
    from=$crate
    [ ! -d "$root/crates/${crate}_c" ] || from=${crate}_c
    (cd "$root/crates/$from" && rt lib) > "$work/log" 2>&1 || { said; echo "could not be built"; exit 2; }
    cp "$root/crates/$from/out/lib$from.a" "$work/staticlib/lib$crate.a"
  done
}

# Proves a program with all it stands on, and writes crates/NAME/out/NAME, which rt then runs on no input.
program() {
  (cd "$root/crates/$1" && rt run) < /dev/null > "$work/log" 2>&1 && [ -x "$root/crates/$1/out/$1" ] || { said; echo "$1 could not be built"; exit 2; }
}

# A copy of the definitions of crates/model, with what computed facts open, as a crate under a root of its own. The facts are to
# be written into $module, a file of its proofs/.
definitions() {
  echo 'model:' > "$work/crates.txt"
  model=$work/crates/model
  mkdir -p "$model/src" "$model/proofs"
  cp -r "$root/crates/model/specs" "$model"
  cp "$root/crates/model/src/lib.rt" "$model/src"
  cp "$root/crates/model/proofs/Computes.antt" "$model/proofs"
  printf 'pub mod %s\n' Computes Facts > "$model/proofs/Lib.antt"
  module=$model/proofs/Facts.antt
}

# Has that crate checked. What the prover says of it is in $work/log.
check_definitions() {
  (cd "$model" && rt check) > "$work/log" 2>&1
}

# The width and height of the original's picture.
picture() {
  sed -e "s/\(WATERFALL_IMAGE_WIDTH: usize =\) [0-9]*/\1 $1/" \
    -e "s/\(WATERFALL_IMAGE_HEIGHT: usize =\) [0-9]*/\1 $2/" "$here/rigflow.rs" > "$work/rigflow.rs"
}

# Compiles a harness for release and runs it: its name, and its arguments.
run() {
  program=$1
  shift
  rustc --edition 2021 -O -A warnings -L "$work/staticlib" -o "$work/$program" "$work/$program.rs"
  "$work/$program" "$@"
}
