# To be sourced, with `root` set. Finds the static libraries in the folder that KULTYGASH_LIBRARIES names, or else those that
# `harness/make_libraries` makes; these are made where they are missing, which proves them first.
KULTYGASH_LIBRARIES=$(realpath -m "${KULTYGASH_LIBRARIES:-$root/target/staticlib}")
export KULTYGASH_LIBRARIES
for library in exports exports_float; do
    [ -f "$KULTYGASH_LIBRARIES/lib$library.a" ] && continue
    [ "$KULTYGASH_LIBRARIES" = "$(realpath -m "$root/target/staticlib")" ] || { echo "$KULTYGASH_LIBRARIES/lib$library.a is missing" >&2; exit 2; }
    echo "lib$library.a is missing: harness/make_libraries makes it, in some minutes" >&2
    "$root/harness/make_libraries" >&2
done
