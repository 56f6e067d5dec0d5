#!/bin/sh
# No column number is read uncounted while a cell is found: of the functions that find one, this lists every place of lent
# words that is read and every call, and compares the list with the one below. Each function of a search is called once,
# also where a cell is set or cleared. There the columns of a row are read by `look`, which counts; the other places are the
# shape, the row starts, N and the values. `row_columns` and `row_values` cut the parts of a row out without reading them.
# `matrix::is_valid` checks the whole matrix before. Listed too are the methods and loops that take words out of a slice.
#
# Of a day matrix over a base matrix: rewriting a row, taking it back and showing it search its mark once; reading through
# the pair searches the mark, and then the cell in the matrix that is shown. Folding searches each row's mark twice, once to
# count the row's entries and once to stage them. What is called beside the searches checks (`day_requests`), or moves and
# copies entries whose place is known (`edits`, `row_edits`, `results`).
set -eu
cd "$(dirname "$0")/.."

# list CRATE PATTERN: the functions of a crate whose names match
list() {
    awk -v crate="$1" -v wanted="^($2)\$" '
        /^ *\/\// || /^ *#!?\[/ { next }
        /^(pub )?fn / { name = $0; sub(/^fn |^pub fn /, "", name); sub(/[(<].*/, "", name); body = /\{$/; next }
        !body { body = /^\{$/ || /^\).* \{$/; next } # parameters and clauses
        name ~ wanted {
            line = $0
            while (match(line, /[A-Za-z_0-9)]+\[[^]]*\]?|[^A-Za-z_0-9.:]([a-z_0-9]+::)?[a-z_][a-z_0-9]*\(|\.(iter|get|first|last|contains|windows|chunks[a-z_]*|split_[a-z_]*|binary_search[a-z_]*)\(|[ ]in [&a-z_]+ \{/)) {
                place = substr(line, RSTART, RLENGTH)
                sub(/^[^A-Za-z_0-9]/, "", place)
                print crate, name ":", place
                line = (place ~ /\($/ ? "(" : "") substr(line, RSTART + RLENGTH)
            }
        }' "crates/$1/src/lib.rt"
}

found=$(
    list rows '.*'
    list cells '.*'
    list matrix 'row_columns|row_values'
    list store_cells 'read_cell|cell_refusal|set_cell|clear_cell'
    list day_marks '.*'
    list day_calls '.*'
    list day_folds '.*'
)
expected='rows find_entry: find_column(
rows find_entry: entry_beside(
rows cell_at: look_at(
rows cell_at: cell_beside(
rows find_column: lower_bound(
rows find_column: look_at(
rows lower_bound: look(
rows look_at: look(
rows look: columns[k]
rows cell_beside: values[p]
rows entry_beside: values[p]
cells read_cell: matrix::is_valid(
cells read_cell: words[ROWS_AT]
cells read_cell: words[COLS_AT]
cells read_cell: entry_at(
cells entry_at: rows::find_entry(
cells entry_at: matrix::row_columns(
cells entry_at: matrix::row_values(
cells entry_at: words[i + STARTS_AT]
matrix row_columns: words[ROWS_AT]
matrix row_columns: words[i + STARTS_AT]
matrix row_columns: words[i + 1 + STARTS_AT]
matrix row_columns: words[from..to]
matrix row_values: words[ROWS_AT]
matrix row_values: words[r + COUNT_PAST]
matrix row_values: words[i + STARTS_AT]
matrix row_values: words[i + 1 + STARTS_AT]
matrix row_values: words[from..to]
store_cells set_cell: slots::check(
store_cells set_cell: store[..]
store_cells set_cell: cell_refusal(
store_cells set_cell: store[..]
store_cells set_cell: cells::entry_at(
store_cells set_cell: slots::contents(
store_cells set_cell: store[..]
store_cells set_cell: add(
store_cells set_cell: grid::position_of(
store_cells set_cell: replace(
store_cells clear_cell: slots::check(
store_cells clear_cell: store[..]
store_cells clear_cell: cell_refusal(
store_cells clear_cell: store[..]
store_cells clear_cell: cells::entry_at(
store_cells clear_cell: slots::contents(
store_cells clear_cell: store[..]
store_cells clear_cell: touch(
store_cells clear_cell: grid::position_of(
store_cells clear_cell: take(
store_cells read_cell: slots::check(
store_cells read_cell: cell_refusal(
store_cells read_cell: cells::entry_at(
store_cells read_cell: slots::contents(
store_cells cell_refusal: slots::contents(
store_cells cell_refusal: words[ROWS_AT]
store_cells cell_refusal: words[COLS_AT]
day_marks is_marked: cells::entry_at(
day_marks shown: is_marked(
day_marks put_mark: edits::insert_entry(
day_marks put_mark: grid::position_of(
day_marks put_mark: edits::replace_value(
day_marks take_mark: cells::entry_at(
day_marks take_mark: marks[..]
day_marks take_mark: matrix::touch(
day_marks take_mark: edits::remove_entry(
day_calls rewrite_row: day_requests::rewrite_refusal(
day_calls rewrite_row: day[..]
day_calls rewrite_row: marks[..]
day_calls rewrite_row: rewrite(
day_calls rewrite: count_with(
day_calls rewrite: day[..]
day_calls rewrite: matrix::entry_count(
day_calls rewrite: day[ROWS_AT]
day_calls rewrite: cells::entry_at(
day_calls rewrite: marks[..]
day_calls rewrite: matrix::size(
day_calls rewrite: marks[..]
day_calls rewrite: day_marks::mark_words(
day_calls rewrite: row_edits::replace_row(
day_calls rewrite: matrix::row_columns(
day_calls rewrite: matrix::row_values(
day_calls rewrite: day_marks::put_mark(
day_calls take_back: day_requests::back_refusal(
day_calls take_back: day[..]
day_calls take_back: marks[..]
day_calls take_back: count_with(
day_calls take_back: day[..]
day_calls take_back: row_edits::replace_row(
day_calls take_back: day_marks::take_mark(
day_calls read_through: day_requests::read_refusal(
day_calls read_through: day_marks::shown(
day_calls read_through: cells::entry_at(
day_calls fold: day_requests::pair_refusal(
day_calls fold: day_folds::folded_count(
day_calls fold: base[ROWS_AT]
day_calls fold: day_folds::write_folded(
day_calls show_row: row_showable(
day_calls show_row: base[0..0]
day_calls show_row: day_marks::is_marked(
day_calls show_row: row_view::row_section(
day_calls show_row: row_view::row_section(
day_calls place_shown: row_showable(
day_calls place_shown: day_marks::is_marked(
day_calls place_shown: row_view::section_place(
day_calls place_shown: row_view::section_place(
day_calls row_showable: day_requests::pair_refusal(
day_calls row_showable: base[ROWS_AT]
day_calls count_with: matrix::entry_count(
day_calls count_with: words[i + STARTS_AT]
day_calls count_with: words[i + 1 + STARTS_AT]
day_folds folded_count: matrix::row_count(
day_folds folded_count: row_length(
day_folds row_length: day_marks::shown(
day_folds row_length: matrix::row_columns(
day_folds write_folded: matrix::row_count(
day_folds write_folded: matrix::col_count(
day_folds write_folded: stage_rows(
day_folds write_folded: results::finish(
day_folds write_folded: words::copy_into(
day_folds write_folded: staged[..r + 2 * n + FIXED_WORDS]
day_folds stage_rows: matrix::row_count(
day_folds stage_rows: stage_row(
day_folds stage_row: day_marks::shown(
day_folds stage_row: matrix::row_columns(
day_folds stage_row: matrix::row_count(
day_folds stage_row: results::stage_row(
day_folds stage_row: matrix::row_values('
if [ "$found" != "$expected" ]; then
    echo "column_reads: the functions that find a cell read other places than those listed in host/column_reads.sh:" >&2
    echo "$found" >&2
    exit 1
fi

# No other crate searches; search_test counts what searches read.
found=$(grep -lE '(cells::entry_at|rows::find_[a-z]*|day_marks::(is_marked|shown|take_mark))\(' crates/*/src/*.rt)
expected='crates/cells/src/lib.rt
crates/day_calls/src/lib.rt
crates/day_folds/src/lib.rt
crates/day_marks/src/lib.rt
crates/search_test/src/main.rt
crates/store_cells/src/lib.rt'
if [ "$found" != "$expected" ]; then
    echo "column_reads: these search a cell or a mark, and are not all listed in host/column_reads.sh:" >&2
    echo "$found" >&2
    exit 1
fi
