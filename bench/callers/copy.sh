# Read by callers.sh and soak.sh: lays a copy of the crates that the program stands on out in $copy, and the program of bench/callers beside
# them, for a pool of $blocks blocks.
names='blk_ptr vdev_io arc_links key_table varint arc_lists arc_core hash_chain turn_table arc_table arc_examples'
mkdir "$copy/crates"
for name in $names; do
    cp -r "$here/../crates/$name" "$copy/crates/"
    grep -E "^$name[ :]" "$here/../crates.txt" >> "$copy/crates.txt"
done
cp "$here/../HANDLES" "$copy/"
mkdir "$copy/crates/callers_bench"
cp -r "$here/callers/src" "$here/callers/proofs" "$copy/crates/callers_bench/"
find "$copy/crates/callers_bench" -name '*.in' -exec sh -c 'mv "$1" "${1%.in}"' _ {} \;
sed -i "s/^const BLOCKS: u64 = .*/const BLOCKS: u64 = ${blocks:-4096};/" "$copy/crates/callers_bench/src/main.rt"
printf 'callers_bench: arc_examples arc_core arc_table blk_ptr turn_table vdev_io\n' >> "$copy/crates.txt"
