# The kit, its clang, and how it compiles for WebAssembly: of `build` and `link`. Vectors are in every browser from 2023 on. (Results of several values would save a tenth of a style's time, but
# compare.py found jobs with other lists then; the cause wasn't looked for.)
# shellcheck shell=bash disable=SC2034 # (used where this is read)
KIT=$(dirname "$(dirname "$(readlink -f "$(command -v rt)")")")
clang=$KIT/toolchain/bin/clang
FLAGS=(--no-default-config --target=wasm32-unknown-unknown -mbulk-memory -msign-ext -mnontrapping-fptoint -msimd128 -O3)
