# Read by compare.sh and bench.sh: builds a program of the original map.
#   build_original SOURCE WORK PROGRAM [OPTIONS]   into WORK/original/target/release/PROGRAM; the crate's files are copied from SOURCE beside those of tools/original
build_original() {
  local source=$1 work=$2 program=$3
  shift 3
  cp -r "$(dirname "${BASH_SOURCE[0]}")/original" "$work/original"
  cp "$source/boxed.rs" "$source/try_reserve_error.rs" "$work/original/src/"
  cp "$source"/btree/{map,node,search}.rs "$work/original/src/btree/"
  (cd "$work/original" && RUSTC_BOOTSTRAP=1 cargo build --quiet --release --offline --bin "$program" "$@")
}
