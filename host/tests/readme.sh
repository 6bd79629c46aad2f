#!/bin/sh
# Compiles the C and the Rust example of README.md as they stand there, and runs both on the map of examples/two-areas.csv; runs its
# plan; and holds its sample output to what the example prints. The lines around an example are the least that make a program of it.
set -e
cd "$(dirname "$0")/../.."
folder=target/readme
mkdir -p "$folder"

# The lines of the README's example in language $1.
example() {
    awk -v start="\`\`\`$1" '$0 == start { on = 1; next } /^```/ { on = 0 } on' README.md
}

{
    example c | grep '^#include'
    cat << 'END'
static uint8_t map[1 << 16];
static uint16_t table[1 << 16];
int main(void)
{
size_t map_length = fread(map, 1, sizeof map, stdin), table_length = sizeof table / sizeof table[0];
END
    example c | grep -v '^#include'
    cat << 'END'
printf("kind %u, area %u with %u MHz-pops and %u cells under licences\n", proposal.kind, outline.area,
       (unsigned)covered.mhz_pops, (unsigned)proposal.areas[0].cells);
}
END
} > "$folder/example.c"

{
    echo 'fn main() -> Result<(), Box<dyn std::error::Error>> {'
    example rust
    cat << 'END'
println!("area {}, {} licence left", footprint.area, register.len());
Ok(())
}
END
} > "$folder/example.rs"

cc -std=c11 -O2 -Wall -Wextra -Werror -pedantic -I host/include "$folder/example.c" target/staticlib/libabi.a -o "$folder/c"
rustc --edition 2024 -D warnings "$folder/example.rs" -o "$folder/rust" -L native=target/staticlib \
    -L dependency=target/cargo/release/deps --extern codwalet=target/cargo/release/libcodwalet.rlib
target/cargo/release/codwalet map build examples/two-areas.csv "$folder/region.map" > "$folder/built"

# The lines that are shown of what a plan prints are lines of it, in its order.
example text > "$folder/shown"
[ "$(wc -l < "$folder/shown")" -gt 5 ]
awk 'NR == FNR { shown[++count] = $0; next } $0 == shown[found + 1] { found++ } END { exit found < count }' \
    "$folder/shown" examples/expected/two-areas.txt

# Nothing of the plan is refused or a mistake.
awk '/^## / { on = $0 == "## For planners" } on && sub(/^    /, "")' README.md > "$folder/readme.plan"
cp examples/two-areas.csv "$folder"
(cd "$folder" && ../cargo/release/codwalet run --strict readme.plan > planned)
grep -q 'footprint 0 svg two-areas.svg *area 212' "$folder/planned"
grep refused "$folder/planned" && exit 1

# By hand: the box covers 4,070 of the 20,427 people of area 143, in 6 cells, by 20 MHz in C, where the area is partial alone. In Rust
# it is 50 MHz wide, and 20 MHz over the 5,998 people of area 212, in 47 cells, are held too: T, 407,000 + 359,880, leaves less white
# space in its M of 1,799,400 than in the 4,085,400 of area 143.
cd "$folder"
./c < region.map > printed
./rust >> printed
diff - printed << 'END'
kind 3, area 143 with 81400 MHz-pops and 6 cells under licences
area 212: 119,960 MHz-pops
kind 3, 2 areas, T 766,880 weighted MHz-pops
area 143: 6 cells under licences
area 212: 47 cells under licences
area 212, 1 licence left
END
echo "readme: the examples run"
