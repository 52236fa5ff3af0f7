# To be read by the run.sh of an example: builds the program where it is not built yet, and sets `program` to it.
crate="$example/../../crates/helib_cli"
program="$crate/out/helib_cli"
# With no words the program stops, and says so: whatever else is said comes from a build that failed.
log=$(cd "$crate" && rt run 2>&1) || true
case $log in
    *"stopped 0 Words"*) ;;
    *) printf '%s\n' "$log"; exit 1 ;;
esac
