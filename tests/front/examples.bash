# shellcheck shell=bash
# The examples stand among the worked rows, as they are.
equal "the examples are worked rows" "$("$top/examples/as_cases" | cmp - "$top/crates/worked_rows/data/examples.cases" 2>&1)" ""
