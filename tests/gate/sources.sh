# What no contract of the running cells and of their families can refuse, looked for in their sources. Each, and family_table below both
# families, has one file, table.rt, that touches its table. That file makes just these calls, each with its kind of step: an access that
# tells the view nothing, a swap where a store belongs, a load with no seat or one more call would be another list. It has no loop. No other
# file touches the table.

# The code of a file: no comments, no clauses, no space.
code_of() {
    clause='^ *\(pub \)\{0,1\}\(requires\|ensures\|ghost\) '
    sed -e 's://.*::' -e "/$clause.*}[;,]*\$/d" -e "/$clause/,/}[;,]*\$/d" "$1" | tr -d ' \n'
}

# The calls on a table, in the order in which they stand in the file, with what they are passed, or, given `kinds`, without it: of a family
# the clauses name the word and the slot of each call.
calls_in() {
    words='\([^()]*\)'
    [ "$2" = kinds ] && words='\('
    code_of "$1" | grep -oE "\\.shared\\.[a-z_]+(::<[A-Za-z<>,]+>)?$words|slot_mut$words|Table::[a-z_]+$words|close[a-z_]*$words"
}

# The word `mod` in the code of a file: a module of table.rt could hold what no list names.
modules_in() {
    sed -e 's://.*::' "$1" | grep -nw mod
}

# Prints what is wrong with the calls of a file; its calls have to be those of the list in $room/listed.
#   fault_in FILE [kinds]
fault_in() {
    calls_in "$1" "$2" >"$room/calls"
    if ! cmp -s "$room/calls" "$room/listed"; then
        echo "other calls: $(diff "$room/listed" "$room/calls" | grep '^[<>]')"
    elif [ "$(code_of "$1" | grep -oE '\bshared\b' | wc -l)" != "$(grep -cE 'shared|slot_mut' "$room/listed")" ]; then
        echo "the shared part of the table is named beside these calls"
    elif code_of "$1" | grep -qE '(peek|fetch_|exchange|new_seat|unsafe|transmute)'; then
        echo "a call that has no kind of step"
    elif sed -e 's://.*::' "$1" | grep -nwE 'while|loop|for|forever'; then
        echo "a loop stands beside them"
    elif modules_in "$1"; then
        echo "a module stands in it"
    else
        return 1
    fi
}

is_listed() {
    title="the calls on the table in $1"
    if fault=$(fault_in "$1" "$2"); then
        fail "$title" "$fault"
    else
        pass "$title"
    fi
}

cat >"$room/listed" <<'LIST'
Table::new(alloc,&[0;32],slots,first)
.shared.split_seat::<Parts>(&mutseat.inner)
.shared.split_seat::<Tells>(&mutseat.inner)
.shared.join_seat::<Hears>(&mutseat.inner,receipt)
.shared.join_seat::<Ends>(&mutseat.inner,reader)
close(self,seat:FourSlotSeat<T>)
close_with(seat)
.shared.load::<Begins<K>>(&mutseat.inner,24)
.shared.store::<Stores>(&mutseat.inner,word,index)
.shared.store::<Finishes>(&mutseat.inner,8,pair)
.shared.load::<Asks>(&mutseat.inner,8)
.shared.store::<Says>(&mutseat.inner,24,pair)
.shared.load::<Takes>(&mutseat.inner,word)
slot_mut(&self.inner.shared,slot)
slot_mut(&self.inner.shared,slot)
slot_mut(&self.inner.shared,slot)
LIST
is_listed crates/cell_four_slot/src/table.rt

cat >"$room/listed" <<'LIST'
Table::new(alloc,&[1],slots,first)
.shared.split_seat::<Parts>(&mutseat.inner)
.shared.split_seat::<Tells>(&mutseat.inner)
.shared.split_seat::<Yields>(&mutseat.inner)
.shared.join_seat::<Hears>(&mutseat.inner,receipt)
.shared.join_seat::<Ends>(&mutseat.inner,notes)
close(self,seat:TripleSeat<T>)
close_with(seat)
.shared.load::<PutTakes>(&mutseat.inner,0)
.shared.load::<GetTakes>(&mutseat.inner,0)
.shared.swap::<PutSwaps>(&mutseat.inner,0,new)
.shared.load::<Looks>(&mutseat.inner,0)
.shared.swap::<GetSwaps>(&mutseat.inner,0,new)
slot_mut(&self.inner.shared,slot)
slot_mut(&self.inner.shared,slot)
slot_mut(&self.inner.shared,slot)
slot_mut(&table.inner.shared,slot)
LIST
is_listed crates/cell_triple/src/table.rt

cat >"$room/listed" <<'LIST'
Table::new(
.shared.split_seat::<First>(
.shared.split_seat::<Tells<T,M>>(
.shared.split_seat::<Repeats>(
.shared.join_seat::<Learns<T,M>>(
.shared.split_seat::<All>(
.shared.join_seat::<Gathers>(
.shared.load::<Shows<M,K>>(
.shared.load::<ShowsAll<M,K>>(
.shared.store::<Says>(
.shared.load::<Showing<Looks<L>,M,K>>(
close(
close_with(
slot_mut(
slot_mut(
LIST
is_listed crates/family_table/src/table.rt kinds

cat >"$room/listed" <<'LIST'
.shared.load::<Begins<K>>(
.shared.store::<Showing<Stores,FourSlotMechanism,K>>(
.shared.store::<Showing<Finishes,FourSlotMechanism,K>>(
.shared.load::<Asks>(
.shared.store::<Says>(
.shared.load::<Showing<TakesOn,FourSlotMechanism,K>>(
.shared.load::<Showing<Takes,FourSlotMechanism,K>>(
LIST
is_listed crates/family_four_slot/src/table.rt kinds

cat >"$room/listed" <<'LIST'
.shared.load::<PutTakes>(
.shared.load::<GetTakes>(
.shared.swap::<Showing<Publishes,TripleMechanism,K>>(
.shared.load::<Showing<Looks,TripleMechanism,K>>(
.shared.swap::<Showing<Fetches,TripleMechanism,K>>(
LIST
is_listed crates/family_triple/src/table.rt kinds

# Elsewhere only what a rule and its kinds of step are made of is taken from `atomic_table`, and what a closed table leaves.
tables='crates/cell_four_slot/src/table.rt crates/cell_triple/src/table.rt crates/family_table/src/table.rt'
tables="$tables crates/family_four_slot/src/table.rt crates/family_triple/src/table.rt"
tabled='cell_contract cell_four_slot cell_triple family_table family_four_slot family_triple'

# Prints what touches a table in the tree of this folder, beside the files of $tables: they are left out by their whole paths. Of all that
# is `unsafe` one line touches none: that a `Spare`, which has no bytes, may cross threads.
touches_in() {
    for crate in $tabled; do
        find "$1/crates/$crate/src" -name '*.rt'
    done | sort >"$room/files"
    while read -r file; do
        case " $tables " in
        *" ${file#"$1"/} "*) continue ;;
        esac
        code_of "$file" | grep -oE 'atomic_table[^;]*;' | grep -vxE 'atomic_table::(TableRule|Closed|Play|Split|\{Join,Play,Split\});' | sed "s:^:$file\: :"
        code_of "$file" | sed 's:unsafeimpl<T>SendforSpare<T>{}::' | grep -oE '\.inner\b|\.shared\b|slot_mut|split_seat|join_seat|(load|store|swap)[a-z_]*::<|peek|fetch_[a-z]+|[a-z_]*exchange[a-z_]*|[a-z_]+_new_seat|close_with|unsafe' | sed "s:^:$file\: :"
    done <"$room/files"
}

title="no other file of the cells and of the families touches a table"
touches_in . >"$room/out"
if [ -s "$room/out" ]; then
    fail "$title" "$(cat "$room/out")"
elif [ "$(wc -l <"$room/files")" -le 4 ]; then
    fail "$title" "there is none"
else
    pass "$title"
fi

# The controls: with one line more each file has a fault, and this one is told.
planted=$room/planted
for crate in $tabled; do
    mkdir -p "$planted/crates/$crate" && cp -r "crates/$crate/src" "$planted/crates/$crate/"
done

# Sees that a table.rt with this line more is refused, and why.
#   is_planted LINE WHY
is_planted() {
    file=$planted/crates/family_triple/src/table.rt
    { cat crates/family_triple/src/table.rt && echo "$1"; } >"$file"
    fault=$(fault_in "$file" kinds)
    case $fault in
    *"$2"*) pass "planted in a table.rt: $1" ;;
    *) fail "planted in a table.rt: $1" "${fault:-nothing is seen}" ;;
    esac
}

is_planted 'fn more(t: &Table) -> u64 { t.shared.load::<Looks>(s, 0) }' '> .shared.load::<Looks>('
is_planted 'fn more(t: &Table) -> &Shared { &t.shared }' 'the shared part of the table'
is_planted 'fn more(t: &Table) -> u64 { t.peek(0) }' 'no kind of step'
is_planted 'fn more() { loop {} }' 'a loop'
is_planted 'mod more;' 'a module'
cp crates/family_triple/src/table.rt "$planted/crates/family_triple/src/table.rt"

# Sees that a table is found touched by a file of this path.
touches_at() {
    mkdir -p "$planted/${1%/*}" && echo 'fn more(t: &Table) -> u64 { t.peek(0) }' >>"$planted/$1"
    if touches_in "$planted" | grep -qxF "$planted/$1: peek"; then
        pass "planted in $1: it touches a table"
    else
        fail "planted in $1: it touches a table" "it isn't seen"
    fi
    rm "$planted/$1"
}

if [ -n "$(touches_in "$planted")" ]; then
    fail "the copy as it is" "something touches a table"
else
    pass "the copy as it is: nothing touches a table"
fi
touches_at crates/cell_contract/src/table.rt
touches_at crates/family_four_slot/src/more/table.rt
touches_at crates/cell_triple/src/tests/more.rt
touches_at crates/cell_four_slot/src/tests.rt
