"""Short histories for the converters, and by hand what has to come of each: a refusal's line, or by key a log with its verdict.

`ALL` has by name the history, what is wanted and the converter's words. The name begins with the converter's.
"""


def log(verdict, *rows, opening='"nil"', header=""):
    """A log and its verdict; a row is `who kind begin end record`, as in JSON, or of a compare-and-set `who cas begin end from record
    swapped`, behind which what it found may stand."""
    made = [f'{{"kind":"lines","opening":{opening}{header}}}']
    for row in rows:
        who, kind, begin, end, record = row.split(" ", 4)
        if kind == "cas":
            asked, record, swapped, *found = record.split(" ", 3)
            record = f'{record},"swapped":{swapped}' + "".join(f',"found":{it}' for it in found)
            end = f'{end},"from":{asked}'
        made.append(f'{{"who":{who},"kind":"{kind}","begin":{begin},"end":{end},"record":{record}}}')
    return "\n".join([*made, f'{{"kind":"done","ops":{len(rows)}}}', ""]), verdict


def repeats(verdict, *rows, opening='"nil"'):
    """The same of a log whose values repeat."""
    return log(verdict, *rows, opening=opening, header=',"repeats":true')


def jepsen(*events):
    """Events of Jepsen as `process type f value`."""
    made = []
    for event in events:
        who, kind, name, value = event.split(" ", 3)
        made.append(f"{{:type :{kind}, :f :{name}, :value {value}, :process {who}}}")
    return "\n".join(made) + "\n"


def keys(*events):
    """Events of Porcupine's keys and values as `process type f key value`."""
    made = []
    for event in events:
        who, kind, name, key, value = event.split(" ", 4)
        made.append(f'{{:process {who}, :type :{kind}, :f :{name}, :key "{key}", :value {value}}}')
    return "\n".join(made) + "\n"


def operation(who, op, call, back, output="null"):
    """An operation of Porcupine as JSON, `back` its return; `op` is `put 3` or `get`, maybe with a key before it."""
    name, *value = op.split(" ")
    value = f',"Value":{value[0]}' if value else ""
    back = "" if back is None else f',"Return":{back}'
    return f'{{"ClientId":{who},"Input":{{"Op":"{name}"{value}}},"Call":{call},"Output":{output}{back}}}\n'


def put(who, value, call, back, output, more=""):
    """A put of etcd's robustness tests."""
    made = f'{{"Type":"put-operation","Put":{{"Key":"k","Value":{{"Value":"{value}","Hash":0}},"LeaseID":0}}}}'
    made = f'{{"Type":"txn","Txn":{{"Conditions":null,"OperationsOnSuccess":[{made}{more}],"OperationsOnFailure":null}}}}'
    return f'{{"ClientId":{who},"Input":{made},"Call":{call},"Output":{output},"Return":{back}}}\n'


def get(who, call, back, values, end="", revision=0):
    """A range of etcd's robustness tests; `values` are those of KVs."""
    made = f'{{"Type":"range","Range":{{"RangeOptions":{{"Start":"k","End":"{end}","Limit":0}},"Revision":{revision}}}}}'
    return f'{{"ClientId":{who},"Input":{made},"Call":{call},"Output":{{"Range":{{"KVs":{values},"Count":1}},"Revision":9}},"Return":{back}}}\n'


def shown(value, revision):
    return f'[{{"Key":"k","Value":{{"Value":"{value}","Hash":0}},"ModRevision":{revision}}}]'


JEPSEN = {
    "fail": (
        jepsen("0 invoke write 3", "0 fail write 3", "1 invoke read nil", "1 ok read 3", "2 invoke write 4", "2 fail write 4"),
        {"only": log("unlawful unwritten 2", "1 read 2 3 3")},
    ),
    "info": (
        jepsen("0 invoke write 3", "0 info write 3", "1 invoke read nil", "1 ok read 3"),
        {"only": log("lawful", "0 write 0 null 3", "1 read 2 3 3")},
    ),
    "goes_on": (
        jepsen("0 invoke write 3", "0 info write 3", "0 invoke write 4", "0 ok write 4", "1 invoke read nil", "1 ok read 3"),
        {"only": log("lawful", "2 write 0 null 3", "0 write 2 3 4", "1 read 4 5 3")},
    ),
    "nemesis": (
        jepsen(":nemesis info start nil", "0 invoke write 3", ":nemesis invoke stop nil", "0 ok write 3"),
        {"only": log("lawful", "0 write 1 3 3")},
    ),
    "keyword": (jepsen(":p0 invoke write 1"), "line 1: a process has a number from 0 on, of at most 64 bits, and not :p0"),
    "text": (jepsen('"a" invoke write 1'), 'line 1: a process has a number from 0 on, of at most 64 bits, and not "a"'),
    "below": (jepsen("0 invoke write 1", "-1 invoke write 2"), "line 2: a process has a number from 0 on, of at most 64 bits, and not -1"),
    "beyond": (
        jepsen("18446744073709551615 invoke write 18446744073709551615", "18446744073709551616 invoke write 2"),
        "line 2: a process has a number from 0 on, of at most 64 bits, and not 18446744073709551616",
    ),
    "greatest": (
        jepsen("18446744073709551615 invoke write 18446744073709551615", "0 invoke write 18446744073709551616", "1 invoke write -1"),
        {
            "only": log(
                "lawful",
                "18446744073709551615 write 0 null 18446744073709551615",
                '0 write 1 null "18446744073709551616"',
                '1 write 2 null "-1"',
            )
        },
    ),
    "true": (jepsen("true invoke write 1"), "line 1: a process has a number from 0 on, of at most 64 bits, and not true"),
    "other_key": (
        jepsen("0 invoke write [0 1]", "0 ok write [5 1]"),
        "line 2: this write ends for another key than that of line 1",
    ),
    "other_key_read": (
        jepsen("0 invoke read [0 nil]", "0 ok read [5 1]"),
        "line 2: this read ends for another key than that of line 1",
    ),
    "no_key": (jepsen("0 invoke write [0 1]", "0 ok write 1"), "line 2: this value has no key"),
    "fail_without_key": (
        jepsen("0 invoke write [0 1]", "0 fail write :timeout", "1 invoke write [0 2]", "1 info write nil"),
        {"0": log("lawful", "1 write 2 null 2")},
    ),
    "same_names": (
        jepsen("0 invoke write [:a 1]", "0 ok write [:a 1]", '0 invoke write ["_a" 1]'),
        "line 3: the keys :a and \"_a\" would both be _a.jsonl",
        ("--to", "/dev/null/none"),
    ),
    "names_that_hide": (
        jepsen('0 invoke write ["" 3]', '0 ok write ["" 3]', '0 invoke write [".y" 4]', '0 ok write [".y" 4]', '0 invoke write ["a.b" 5]'),
        {"_": log("lawful", "0 write 0 1 3"), "_.y": log("lawful", "0 write 2 3 4"), "a.b": log("lawful", "0 write 4 null 5")},
    ),
    "same_names_that_hide": (
        jepsen('0 invoke write [".y" 1]', '0 ok write [".y" 1]', '0 invoke write ["_.y" 1]'),
        'line 3: the keys ".y" and "_.y" would both be _.y.jsonl',
        ("--to", "/dev/null/none"),
    ),
    "maps": (
        jepsen("0 invoke write {:a 1 :b #{2 1}}", "0 ok write {:a 1 :b #{1 2}}", "1 invoke read nil", "1 ok read {:b #{2 1} :a 1}"),
        {"only": log("lawful", '0 write 0 1 "{:a 1, :b #{1 2}}"', '1 read 2 3 "{:a 1, :b #{1 2}}"')},
    ),
    "sets": (
        jepsen("0 invoke write #{7 5 3 1 2 4 6}", "0 ok write #{1 2 3 4 5 6 7}", "0 invoke write #{2}", "0 ok write #{2}"),
        {"only": log("lawful", '0 write 0 1 "#{1 2 3 4 5 6 7}"', '0 write 2 3 "#{2}"')},
    ),
    "kinds_of_values": (
        jepsen("0 invoke write :a", "1 invoke write a", '2 invoke write "a"', "3 invoke write \\a", "4 invoke write 1", "5 invoke write 1.0",
               "6 invoke write 1M", "7 invoke write true", '8 invoke write "\\u0061\\n"', "9 invoke write [1]",
               "10 invoke write false"),
        {
            "only": log(
                "lawful", '0 write 0 null ":a"', '1 write 1 null "a"', '2 write 2 null "\\"a\\""', '3 write 3 null "\\\\a"', "4 write 4 null 1",
                '5 write 5 null "1.0"', '6 write 6 null "1M"', '7 write 7 null "true"', '8 write 8 null "\\"a\\\\n\\""', '9 write 9 null "[1]"',
                '10 write 10 null "false"',
            )
        },
    ),
    "same_fraction": (
        jepsen("0 invoke write 10.0", "0 ok write 10.0", "1 invoke read nil", "1 ok read 1e1"),
        {"only": log("lawful", '0 write 0 1 "10.0"', '1 read 2 3 "10.0"')},
    ),
    "endless": (jepsen("0 invoke write 1", "1 invoke write 1e999"), "line 2: a number that is too large"),
    "long_number": (jepsen("0 invoke write " + "7" * 5000), "line 1: a number that is too large"),
    "deep": (jepsen("0 invoke write 1") + "[" * 3000, "line 2: nested too deep"),
    "bytes": (b"; a\n; \xff\n", "line 2: this isn't UTF-8"),
    "half": (jepsen("1 invoke write 3", '0 invoke write "\\ud800"'), "line 2: a text with half a letter"),
    "other_kind": (jepsen("0 invoke write 3", "0 ok read 3"), "line 2: a read ends the write of line 1"),
    "other_kind_fails": (jepsen("0 invoke write 3", "0 fail read nil"), "line 2: a read ends the write of line 1"),
    "other_kind_unknown": (jepsen("0 invoke read nil", "0 info write nil"), "line 2: a write ends the read of line 1"),
    "no_begin": (jepsen("0 ok write 3"), "line 1: 0 ends what it hadn't begun"),
    "no_begin_fails": (jepsen("0 fail write 3"), "line 1: 0 ends what it hadn't begun"),
    "no_begin_unknown": (jepsen("0 info write 3"), "line 1: 0 ends what it hadn't begun"),
    "ends_twice": (jepsen("0 invoke write 3", "0 ok write 3", "0 ok write 3"), "line 3: 0 ends what it hadn't begun"),
    "unknown_type": (jepsen("0 invoke write 3", "0 okay write 3"), "line 2: :okay is no type"),
    "no_operation": ("{:type :invoke, :f :write, :value 1, :process 0}\n:why\n", "line 2: this is no operation of a history"),
    "no_process": ("{:type :invoke, :f :write, :value 1}\n", "line 1: this is no operation of a history"),
    "no_type": ("{:f :write, :value 1, :process 0}\n", "line 1: this is no operation of a history"),
    "function_of_a_list": (
        "{:type :invoke, :f [1 2], :value 1, :process 0}\n",
        "line 1: [1 2] is no :read, :write or :cas\nof 1 operations 1 can't be said: 1 of kind `[1 2]`",
    ),
    "end_of_a_list": (jepsen("[1] ok write 3"), "line 1: [1] ends what it hadn't begun"),
    "no_function": ("{:type :invoke, :value 1, :process 0}\n", "line 1: nil is no :read, :write or :cas"),
    "counted": (
        jepsen("0 invoke append [1 2]", "0 ok append [1 2]", "0 invoke write 3", "0 ok write 3", "0 invoke write 3", "0 ok write 3",
               "0 invoke append [1 2]", "0 fail append [1 2]", "0 invoke txn nil", "0 ok txn nil", "1 invoke cas [1 2]"),
        "line 1: :append is no :read, :write or :cas\nof 6 operations 3 can't be said: 2 of kind `:append`, 1 of kind `:txn`",
    ),
    "other_value": (jepsen("0 invoke write 3", "0 ok write 4"), "line 2: this write ends with another value than that of line 1"),
    "other_part": (jepsen("0 invoke write [0 [nil 3]]", "0 ok write [0 [1 4]]"), "line 2: this write ends with another value than that of line 1"),
    "no_list": (jepsen("0 invoke write 3", "0 ok write [3 4 5]"), "line 2: this write ends with another value than that of line 1"),
    "long_lists": (
        jepsen(f"0 invoke write {[7] * 64}".replace(",", ""), f"1 invoke write {[7] * 65}".replace(",", "")),
        {"log": log("lawful", f"0 write 0 null {[7] * 64}".replace(", ", ","), f'1 write 1 null "{[7] * 65}"'.replace(",", ""))},
    ),
    "one_unfinished_version": (
        jepsen("1 invoke write [0 [nil 3]]", "4 invoke read [0 nil]", "4 ok read [0 [2 3]]", "4 invoke read [0 nil]", "4 ok read [0 [1 3]]"),
        {"0": log("unlawful unwritten 4", "1 write 0 null [2,3]", "4 read 1 2 [2,3]", "4 read 3 4 [1,3]")},
    ),
    "shorter": (jepsen("0 invoke write [0 [nil 3]]", "0 ok write [0 [1]]"), "line 2: this write ends with another value than that of line 1"),
    "versions": (
        jepsen("1 invoke write [0 [nil 3]]", "1 ok write [0 [1 3]]", "2 invoke read [0 [nil nil]]", "2 ok read [0 [1 3]]",
               "1 invoke write [0 [nil 3]]", "1 ok write [0 [2 3]]", "2 invoke read [0 [nil nil]]", "2 ok read [0 [1 3]]"),
        {
            "0": log("unlawful crossed 2 4 4 5", "1 write 0 1 [1,3]", "2 read 2 3 [1,3]", "1 write 4 5 [2,3]", "2 read 6 7 [1,3]", opening="[0,0]")
        },
        ("--opening", "[0 0]"),
    ),
    "version_of_an_unfinished_write": (
        jepsen("1 invoke write [0 [nil 3]]", "1 info write [0 [nil 3]]", "2 invoke write [0 [nil 3]]", "2 info write [0 [nil 3]]",
               "3 invoke write [0 [nil 4]]", "3 ok write [0 [1 4]]", "4 invoke read [0 nil]", "4 ok read [0 [2 3]]"),
        {"0": log("lawful", "1 write 0 null [2,3]", "3 write 4 5 [1,4]", "4 read 6 7 [2,3]")},
    ),
    "two_versions_of_unfinished_writes": (
        jepsen("1 invoke write [0 [nil 3]]", "2 invoke write [0 [nil 3]]", "4 invoke read [0 nil]", "4 ok read [0 [2 3]]",
               "4 invoke read [0 nil]", "4 ok read [0 [1 3]]"),
        "line 3: nobody knows which of lines 1, 2 wrote what this read gave\n"
        "of 4 operations 2 can't be said: 2 of kind `read of an unfinished write`",
    ),
    "version_that_nobody_wrote": (
        jepsen("1 invoke write [0 [nil 3]]", "4 invoke read [0 nil]", "4 ok read [0 [2 5]]"),
        {"0": log("unlawful unwritten 2", "4 read 1 2 [2,5]")},
    ),
    "nil_that_is_a_value": (
        jepsen("0 invoke write [0 [nil 3]]", "0 ok write [0 [nil 3]]", "1 invoke write [0 [nil 4]]", "2 invoke read [0 nil]", "2 ok read [0 [9 4]]"),
        {"0": log("unlawful unwritten 4", '0 write 0 1 "[nil 3]"', '1 write 2 null "[nil 4]"', "2 read 3 4 [9,4]")},
    ),
    "nil_that_a_read_gives": (
        jepsen("0 invoke write [1 nil 2]", "0 info write [1 nil 2]", "1 invoke read nil", "1 ok read [1 nil 2]"),
        {"only": log("lawful", '0 write 0 null "[1 nil 2]"', '1 read 2 3 "[1 nil 2]"')},
    ),
    "nil_behind_a_version": (
        jepsen("0 invoke write [0 [nil nil]]", "1 invoke read [0 nil]", "1 ok read [0 [1 nil]]"),
        {"0": log("lawful", '0 write 0 null "[1 nil]"', '1 read 1 2 "[1 nil]"')},
    ),
    "version_beside_a_nil": (
        jepsen("0 invoke write [0 [nil nil]]", "0 ok write [0 [1 nil]]", "1 invoke write [0 [nil 3]]", "2 invoke read [0 nil]",
               "2 ok read [0 [2 3]]"),
        {"0": log("lawful", '0 write 0 1 "[1 nil]"', "1 write 2 null [2,3]", "2 read 3 4 [2,3]")},
    ),
    "nil_and_a_version_at_one_place": (
        jepsen("0 invoke write [0 [nil 3]]", "0 ok write [0 [nil 3]]", "0 invoke write [0 [nil 4]]", "0 ok write [0 [1 4]]",
               "1 invoke write [0 [nil 5]]", "2 invoke read [0 nil]", "2 ok read [0 [2 5]]"),
        {"0": log("lawful", '0 write 0 1 "[nil 3]"', "0 write 2 3 [1,4]", "1 write 4 null [2,5]", "2 read 5 6 [2,5]")},
    ),
    "nil_that_another_value_has": (
        jepsen("0 invoke write [1 nil 2]", "0 ok write [1 nil 2]", "1 invoke write [1 nil 3]", "2 invoke read nil", "2 ok read [1 5 3]"),
        {"only": log("unlawful unwritten 4", '0 write 0 1 "[1 nil 2]"', '1 write 2 null "[1 nil 3]"', "2 read 3 4 [1,5,3]")},
    ),
    "nil_of_two_unfinished_writes": (
        jepsen("0 invoke write [1 nil 2]", "1 invoke write [1 nil 2]", "2 invoke read nil", "2 ok read [1 nil 2]", "2 invoke write 7",
               "2 ok write 7", "2 invoke read nil", "2 ok read [1 nil 2]", "3 invoke write [1 nil 4]"),
        {
            "only": repeats("lawful", '0 write 0 null "[1 nil 2]"', '1 write 1 null "[1 nil 2]"', '2 read 2 3 "[1 nil 2]"', "2 write 4 5 7",
                            '2 read 6 7 "[1 nil 2]"')
        },
    ),
    "versions_of_which_one_fits_one_write": (
        jepsen("0 invoke write [0 [nil 3]]", "1 invoke write [0 [nil nil]]", "2 invoke read [0 nil]", "2 ok read [0 [2 3]]",
               "2 invoke read [0 nil]", "2 ok read [0 [5 6]]"),
        {"0": log("lawful", "0 write 0 null [2,3]", "1 write 1 null [5,6]", "2 read 2 3 [2,3]", "2 read 4 5 [5,6]")},
    ),
    "version_or_a_write": (
        jepsen("0 invoke write [0 [2 3]]", "1 invoke write [0 [nil 3]]", "2 invoke read [0 nil]", "2 ok read [0 [2 3]]"),
        "line 3: nobody knows which of lines 1, 2 wrote what this read gave\n"
        "of 3 operations 1 can't be said: 1 of kind `read of an unfinished write`",
    ),
    "version_or_a_cas": (
        jepsen("1 invoke write [0 [nil 3]]", "0 invoke cas [0 [[0 0] [2 3]]]", "2 invoke cas [0 [[2 3] [4 4]]]",
               "2 ok cas [0 [[2 3] [4 4]]]"),
        "line 3: nobody knows which of lines 1, 2 wrote what this cas saw\n"
        "of 3 operations 1 can't be said: 1 of kind `read of an unfinished write`",
    ),
    "version_that_a_miss_names": (
        jepsen("0 invoke write [0 [nil 3]]", "1 invoke cas [0 [[0 0] [2 3]]]", "1 fail cas [0 [[0 0] [2 3]]]", "2 invoke read [0 nil]",
               "2 ok read [0 [2 3]]"),
        {"0": repeats("lawful", "0 write 0 null [2,3]", "1 cas 1 2 [0,0] [2,3] false", "2 read 3 4 [2,3]", opening="[0,0]")},
        ("--opening", "[0 0]", "--failed-cas-missed"),
    ),
    "version_that_a_miss_found": (
        jepsen("0 invoke write [0 [nil 3]]", "1 invoke cas [0 [[0 0] [5 5]]]", "1 fail cas [0 [[0 0] [5 5]]]"),
        {"0": repeats("lawful", '0 write 0 null "[nil 3]"', "1 cas 1 2 [0,0] [5,5] false", opening="[0,0]")},
        ("--opening", "[0 0]", "--failed-cas-missed"),
    ),
    "version_that_a_miss_asked_for": (
        jepsen("0 invoke write [0 [nil 3]]", "1 invoke cas [0 [[2 3] [5 5]]]", "1 fail cas [0 [[2 3] [5 5]]]", "2 invoke read [0 nil]",
               "2 ok read [0 [4 3]]"),
        {"0": repeats("lawful", "0 write 0 null [4,3]", "1 cas 1 2 [2,3] [5,5] false", "2 read 3 4 [4,3]", opening="[0,0]")},
        ("--opening", "[0 0]", "--failed-cas-missed"),
    ),
    "version_that_a_cas_asks_for": (
        jepsen("0 invoke write [0 [nil 3]]", "1 invoke cas [0 [[2 3] [5 5]]]", "2 invoke read [0 nil]", "2 ok read [0 [5 5]]"),
        {"0": repeats("lawful", "0 write 0 null [2,3]", "1 cas 1 null [2,3] [5,5] null", "2 read 2 3 [5,5]")},
    ),
    "version_that_a_cas_may_ask_for": (
        jepsen("0 invoke write [0 [nil 3]]", "1 invoke cas [0 [[2 3] [5 5]]]", "2 invoke read [0 nil]", "2 ok read [0 [9 3]]"),
        {"0": repeats("lawful", "0 write 0 null [9,3]", "1 cas 1 null [2,3] [5,5] null", "2 read 2 3 [9,3]")},
    ),
    "version_that_a_read_gives_too": (
        jepsen("0 invoke write [0 [nil 3]]", "1 invoke cas [0 [[9 3] [5 5]]]", "2 invoke cas [0 [[2 3] [6 6]]]", "3 invoke read [0 nil]",
               "3 ok read [0 [2 3]]"),
        {"0": repeats("lawful", "0 write 0 null [2,3]", "1 cas 1 null [9,3] [5,5] null", "2 cas 2 null [2,3] [6,6] null", "3 read 3 4 [2,3]")},
    ),
    "nil_that_a_cas_keeps": (
        jepsen("0 invoke write [nil 5 3]", "1 invoke cas [[2 5 3] [1 5 3]]", "2 invoke cas [[nil 5 3] [nil 5 3]]", "2 ok cas [[nil 5 3] [nil 5 3]]"),
        "line 3: nobody knows which of lines 1, 3 wrote what this cas saw\n"
        "of 3 operations 1 can't be said: 1 of kind `read of an unfinished write`",
    ),
    "nil_that_a_cas_keeps_of_two": (
        jepsen("0 invoke write [nil 5 3]", "1 invoke cas [[nil 5 3] [nil 5 3]]", "1 ok cas [[nil 5 3] [nil 5 3]]", "2 invoke write [nil 5 3]",
               "1 invoke read nil", "1 ok read [2 5 3]"),
        "line 5: nobody knows which of lines 1, 4 wrote what this read gave\n"
        "of 4 operations 1 can't be said: 1 of kind `read of an unfinished write`",
    ),
    "nil_that_a_cas_leaves": (
        jepsen("0 invoke write [nil]", "1 invoke cas [0 9]", "1 ok cas [0 9]", "1 invoke cas [9 [nil]]", "1 ok cas [9 [nil]]",
               "1 invoke cas [[nil] 7]", "1 ok cas [[nil] 7]", "2 invoke read nil", "2 ok read [2]"),
        {
            "only": repeats("lawful", '0 write 0 null "[2]"', "1 cas 1 2 0 9 true", '1 cas 3 4 9 "[nil]" true', '1 cas 5 6 "[nil]" 7 true',
                            '2 read 7 8 "[2]"', opening="0")
        },
        ("--opening", "0"),
    ),
    "version_that_no_end_told": (
        jepsen("0 invoke write [0 [nil 3]]", "0 ok write [0 nil]", "1 invoke read [0 nil]", "1 ok read [0 [7 3]]",
               "1 invoke write [0 [nil 4]]", "1 ok write [0 nil]"),
        {"0": log("lawful", "0 write 0 1 [7,3]", "1 read 2 3 [7,3]", '1 write 4 5 "[nil 4]"')},
    ),
    "version_of_a_finished_write_or_not": (
        jepsen("0 invoke write [0 [nil 3]]", "1 invoke write [0 [nil 3]]", "0 ok write [0 nil]", "2 invoke read [0 nil]",
               "2 ok read [0 [7 3]]"),
        "line 4: nobody knows which of lines 1, 2 wrote what this read gave\n"
        "of 3 operations 1 can't be said: 1 of kind `read of an unfinished write`",
    ),
    "versions_without_keys": (
        jepsen("1 invoke write [nil 3]", "1 ok write [7 3]", "2 invoke read nil", "2 ok read [7 3]", "1 invoke write [nil 4]",
               "2 invoke read [nil nil]", "2 ok read [8 4]"),
        {"only": log("lawful", "1 write 0 1 [7,3]", "2 read 2 3 [7,3]", "1 write 4 null [8,4]", "2 read 5 6 [8,4]", opening='"[0 nil]"')},
        ("--opening", "[0 nil]"),
    ),
    "versions_beside_keys": (
        jepsen("0 invoke write [0 3]", "0 ok write [0 3]", "0 invoke write [nil 3]"),
        "line 3: some values are [key value], and this is none"),
    "unfinished_nil": (
        jepsen("0 invoke write nil", "0 info write nil", "1 invoke read nil", "1 ok read 7"),
        {"only": log("lawful", "0 write 0 null 7", "1 read 2 3 7")},
    ),
    "nil_that_stays": (
        jepsen("0 invoke write nil", "0 ok write nil", "1 invoke write nil", "2 invoke read nil", "2 ok read 7"),
        {"only": repeats("unlawful unwritten 4", '0 write 0 1 "nil"', '1 write 2 null "nil"', "2 read 3 4 7")},
    ),
    "value_that_the_write_gave": (
        jepsen("0 invoke write nil", "0 ok write 7", "1 invoke read nil", "1 ok read 7"),
        {"only": log("lawful", "0 write 0 1 7", "1 read 2 3 7")},
    ),
    "no_value_at_the_end": (
        jepsen("0 invoke write 7", "0 ok write nil", "1 invoke read nil", "1 ok read 7"),
        {"only": log("lawful", "0 write 0 1 7", "1 read 2 3 7")},
    ),
    "opening": (
        jepsen("1 invoke read nil", "1 ok read 0"),
        {"only": log("lawful", "1 read 0 1 0", opening="0")},
        ("--opening", "0"),
    ),
    "empty": (jepsen(":nemesis info start nil"), "line 1: there is no operation of a register"),
    "nothing_that_stays": (jepsen("0 invoke read nil"), "line 1: there is no operation that ended"),
    "discarded": ("#_{:a 1} " + jepsen("0 invoke write #tag 3") + "#_ 7", {"only": log("lawful", "0 write 0 null 3")}),
    "one_vector": ("[" + jepsen("0 invoke write 3", "0 ok write 3") + "]", {"only": log("lawful", "0 write 0 1 3")}),
    "vector_and_a_note": ("[" + jepsen("0 invoke write 3", "0 ok write 3") + "] ; the end\n#_ 7", {"only": log("lawful", "0 write 0 1 3")}),
    "two_vectors": (
        "[" + jepsen("0 invoke write 3", "0 ok write 3") + "]\n[" + jepsen("1 invoke read nil", "1 ok read 4") + "]",
        "line 4: [ behind the vector"),
    "more_behind_a_vector": ("[" + jepsen("0 invoke write 3") + "]\n" + jepsen("0 ok write 3"), "line 3: { behind the vector"),
    "closed_twice": ("[" + jepsen("0 invoke write 3") + "]]", "line 2: ] behind the vector"),
    "cut_off": ("[" + jepsen("0 invoke write 3", "0 ok write 3"), "line 3: an end where ] belongs"),
    "unended": ('{:a "x', "line 1: no EDN"),
    "closed": (jepsen("0 invoke write 3") + "}", "line 2: } where a value belongs"),
    "discarded_inside": (jepsen("0 invoke write [0 #_ [7] 1]"), {"0": log("lawful", "0 write 0 null 1")}),
    "keys_of_maps": (
        jepsen('0 invoke write {1 :a "1" :b [2] :c}'),
        {"only": log("lawful", '0 write 0 null "{\\"1\\" :b, 1 :a, [2] :c}"')},
    ),
    "wrongly_closed": ("{:a [1}", "line 1: } closes ["),
    "half_a_map": ("{:a}", "line 1: a key without a value"),
    "cas": (
        jepsen("0 invoke cas [nil 3]", "0 ok cas [nil 3]", "0 invoke read nil", "0 ok read 3", "1 invoke cas [3 4]", "1 ok cas nil",
               "0 invoke read nil", "0 ok read 3"),
        {"only": repeats("unlawful lost 5", '0 cas 0 1 "nil" 3 true', "0 read 2 3 3", "1 cas 4 5 3 4 true", "0 read 6 7 3")},
    ),
    "cas_unknown": (
        jepsen("0 invoke write 3", "0 ok write 3", "1 invoke cas [3 4]", "1 info cas [3 4]", "2 invoke cas [3 5]", "0 invoke read nil", "0 ok read 4",
               "1 invoke write 6"),
        {"only": repeats("lawful", "0 write 0 1 3", "3 cas 2 null 3 4 null", "2 cas 4 null 3 5 null", "0 read 5 6 4", "1 write 7 null 6")},
    ),
    "cas_fails": (
        jepsen("0 invoke write 3", "0 ok write 3", "1 invoke cas [3 4]", "1 fail cas [3 4]", "0 invoke read nil", "0 ok read 3"),
        {"only": log("lawful", "0 write 0 1 3", "0 read 4 5 3")},
    ),
    "cas_missed": (
        jepsen("0 invoke write 3", "0 ok write 3", "1 invoke cas [3 4]", "1 fail cas [3 4]", "0 invoke read nil", "0 ok read 3"),
        {"only": repeats("unlawful lost 3", "0 write 0 1 3", "1 cas 2 3 3 4 false", "0 read 4 5 3")},
        ("--failed-cas-missed",),
    ),
    "cas_missed_other_failures": (
        jepsen("0 invoke write 3", "0 ok write 3", "1 invoke write 4", "1 fail write 4", "1 invoke cas [4 5]", "1 fail cas nil", "0 invoke read nil",
               "0 fail read nil")
        + '{:type :invoke, :f :cas, :value [3 4], :process 2}\n{:type :fail, :f :cas, :value [3 4], :process 2, :error :no-leader}\n'
        + '{:type :invoke, :f :cas, :value [3 6], :process 2}\n{:type :info, :f :cas, :value [3 6], :process 2, :error nil}\n',
        {"only": repeats("lawful", "0 write 0 1 3", "1 cas 4 5 4 5 false", "2 cas 10 null 3 6 null")},
        ("--failed-cas-missed",),
    ),
    "cas_of_no_pair": (jepsen("0 invoke cas 3"), "line 1: a cas has the value that it asks for and the one that it leaves, and not 3"),
    "cas_of_three": (jepsen("0 invoke cas [3 4 5]"), "line 1: a cas has the value that it asks for and the one that it leaves, and not [3 4 5]"),
    "cas_of_a_version": (
        jepsen("0 invoke write [0 [nil 3]]", "0 ok write [0 [1 3]]", "1 invoke cas [0 [nil [3 4]]]", "1 ok cas [0 [2 [3 4]]]"),
        "line 3: a cas has the value that it asks for and the one that it leaves, and not [nil [3 4]]",
    ),
    "cas_of_other_values": (jepsen("0 invoke cas [3 4]", "0 ok cas [3 5]"), "line 2: this cas ends with another value than that of line 1"),
    "cas_of_another_key": (jepsen("0 invoke cas [0 [3 4]]", "0 ok cas [5 [3 4]]"), "line 2: this cas ends for another key than that of line 1"),
    "cas_without_a_key": (
        jepsen("0 invoke write [0 3]", "0 ok write [0 3]", "0 invoke cas [3 4]"), "line 3: some values are [key value], and this is none"),
    "cas_beside_no_key": (
        jepsen("0 invoke write 3", "0 ok write 3", "0 invoke cas [3 4]", "0 ok cas [3 4]"),
        {"only": repeats("lawful", "0 write 0 1 3", "0 cas 2 3 3 4 true")},
    ),
    "cas_ends_as_a_write": (jepsen("0 invoke cas [3 4]", "0 ok write 4"), "line 2: a write ends the cas of line 1"),
    "cas_that_a_read_shows": (
        jepsen("0 invoke write [0 [nil 3]]", "1 invoke cas [0 [[0 0] [2 3]]]", "1 ok cas [0 [[0 0] [2 3]]]", "2 invoke read [0 nil]", "2 ok read [0 [2 3]]"),
        {"0": repeats("lawful", "1 cas 1 2 [0,0] [2,3] true", "2 read 3 4 [2,3]", opening="[0,0]")},
        ("--opening", "[0 0]"),
    ),
    "cas_of_texts": (
        jepsen('0 invoke cas [:a "b"]', '0 ok cas [:a "b"]'),
        {"only": repeats("unlawful unwritten 2", '0 cas 0 1 ":a" "\\"b\\"" true')},
    ),
    "cas_of_half_a_letter": (jepsen("1 invoke write 3", '0 invoke cas ["\\ud800" 3]'), "line 2: a text with half a letter"),
    "repeats": (
        jepsen("0 invoke write 3", "0 ok write 3", "1 invoke read nil", "1 ok read nil"),
        {"only": repeats("unlawful lost 3", "0 write 0 1 3", '1 read 2 3 "nil"')},
        ("--repeats",),
    ),
    "repeats_of_one_key": (
        jepsen("0 invoke write [0 3]", "0 ok write [0 3]", "0 invoke write [1 3]", "0 ok write [1 3]", "0 invoke write [1 3]"),
        {"0": log("lawful", "0 write 0 1 3"), "1": repeats("lawful", "0 write 2 3 3", "0 write 4 null 3")},
    ),
    "repeats_of_the_opening": (
        jepsen("0 invoke write 0", "1 invoke read nil", "1 ok read nil"),
        {"only": repeats("unlawful unwritten 3", "0 write 0 null 0", '1 read 1 2 "nil"', opening="0")},
        ("--opening", "0"),
    ),
}


def cas(who, values, call, back, output="null"):
    """A compare-and-set of Porcupine as JSON."""
    asked, left = values.split(" ")
    back = "" if back is None else f',"Return":{back}'
    return f'{{"ClientId":{who},"Input":{{"Op":"cas","From":{asked},"To":{left}}},"Call":{call},"Output":{output}{back}}}\n'


EVENT = '{{"ClientId":{},"Kind":{},"Value":{},"Id":{}}}\n'.format
PORCUPINE = {
    "fail": (
        keys('0 invoke put x "1"', '0 fail put x "1"', "1 invoke get x nil", '1 ok get x "1"'),
        {"x": log("unlawful unwritten 2", '1 read 2 3 "\\"1\\""', opening='"\\"\\""')},
    ),
    "info": (
        keys('0 invoke put x "1"', '0 info put x "1"', "1 invoke get x nil", '1 ok get x "1"'),
        {"x": log("lawful", '0 write 0 null "\\"1\\""', '1 read 2 3 "\\"1\\""', opening='"\\"\\""')},
    ),
    "other_key": (keys('0 invoke put x "1"', '0 ok put y "1"'), "line 2: this write ends for another key than that of line 1"),
    "other_value": (keys('0 invoke put x "1"', '0 ok put x "2"'), "line 2: this write ends with another value than that of line 1"),
    "goes_on_keys": (
        keys('0 invoke put x "1"', '0 info put x "1"', "0 invoke get x nil", '0 ok get x "1"'),
        {"x": log("lawful", '1 write 0 null "\\"1\\""', '0 read 2 3 "\\"1\\""', opening='"\\"\\""')},
    ),
    "opening_of_nil": (
        keys("0 invoke get x nil", "0 ok get x nil"),
        {"x": log("lawful", '0 read 0 1 "nil"')},
        ("--opening", "nil"),
    ),
    "unknown_type": (keys('0 invoke put x "1"', '0 done put x "1"'), "line 2: :done is no type"),
    "no_key": ('{:process 0, :type :invoke, :f :put, :value "1"}\n', "line 1: this is no event"),
    "no_event": ('{:process 0, :type :invoke, :f :put, :key "x", :value "1"}\nwhy\n', "line 2: this is no event"),
    "counted_keys": (
        keys("0 invoke append x 1", "0 ok append x 1", '0 invoke put x "1"', "1 invoke append x 1"),
        "line 1: append is no read, write or cas\nof 3 operations 2 can't be said: 2 of kind `append`",
    ),
    "timed_out": (
        "INFO  jepsen.util - 0\t:invoke\t:write\t3\nINFO  jepsen.util - 0\t:fail\t:write\t:timed-out\n"
        "INFO  jepsen.util - 1\t:invoke\t:read\tnil\nINFO  jepsen.util - 1\t:ok\t:read\t3\n",
        {"only": log("lawful", "0 write 0 null 3", "1 read 2 3 3")},
    ),
    "failed": (
        "INFO  jepsen.util - 0\t:invoke\t:write\t3\nINFO  jepsen.util - 0\t:fail\t:write\t3\n"
        "INFO  jepsen.util - 1\t:invoke\t:read\tnil\nINFO  jepsen.util - 1\t:ok\t:read\t3\n",
        {"only": log("unlawful unwritten 2", "1 read 2 3 3")},
    ),
    "nemesis": (
        "INFO  jepsen.util - :nemesis\t:info\t:start\tnil\nINFO  jepsen.util - 0\t:invoke\t:write\t3\n",
        {"only": log("lawful", "0 write 1 null 3")},
    ),
    "no_line_of_a_nemesis": ("INFO  jepsen.util - 0\t:invoke\t:write\t3\nINFO  why\n", "line 2: this is no event"),
    "two_events_of_keys": (
        keys('0 invoke put x "1"') + keys('0 ok put x "1"', "1 invoke get x nil").replace("\n", " ", 1),
        "line 2: more than one event on a line"),
    "two_events": (
        "INFO  jepsen.util - 0\t:invoke\t:write\t3 INFO  jepsen.util - 0\t:ok\t:write\t3\n", "line 1: more than one value on a line"),
    "nil_of_keys": (
        keys("0 invoke put x [1 nil 2]", "0 info put x [1 nil 2]", "1 invoke get x nil", "1 ok get x [1 nil 2]"),
        {"x": log("lawful", '0 write 0 null "[1 nil 2]"', '1 read 2 3 "[1 nil 2]"', opening='"\\"\\""')},
    ),
    "null_that_a_read_gives": (
        operation(0, 'put ["a",null]', 0, None) + operation(1, "get", 5, 6, '["a",null]'),
        {"only": log("lawful", '0 write 0 null "[\\"a\\" nil]"', '1 read 5 6 "[\\"a\\" nil]"')},
    ),
    "null_that_is_a_value": (
        operation(0, 'put ["a",null]', 0, None) + operation(1, "get", 5, 6, '["a",3]'),
        {"only": log("unlawful unwritten 3", '0 write 0 null "[\\"a\\" nil]"', '1 read 5 6 "[\\"a\\" 3]"')},
    ),
    "no_line": ("INFO  jepsen.util - 0\t:invoke\t:write\t3\nWARN  why\n", "line 2: this is no event"),
    "endless_line": ("INFO  jepsen.util - 0\t:invoke\t:write\t1e999\n", "line 1: a number that is too large"),
    "returns_at_nothing": (
        operation(0, "put 3", 0, 0) + operation(1, "get", 5, 6, "3"),
        {"only": log("lawful", "0 write 0 0 3", "1 read 5 6 3")},
    ),
    "output_of_a_write": (operation(0, "put 3", 0, 5, "7"), {"only": log("lawful", "0 write 0 5 3")}),
    "fraction": (operation(0, "put 1.5", 0, 5), {"only": log("lawful", '0 write 0 5 "1.5"')}),
    "half_an_event": ('{"Kind":0}\n', "line 1: this is neither an operation nor an event"),
    "empty": ("", "line 1: there is no operation of a register"),
    "array": ("[" + operation(0, "put 3", 0, 5) + ",\n7]", "line 1: this is no object"),
    "never_returns": (
        operation(0, "put 3", 0, None) + operation(1, "get", 5, None) + operation(2, "write 4", 6, "null") + operation(3, "read", 7, 8, "4"),
        {"only": log("lawful", "0 write 0 null 3", "2 write 6 null 4", "3 read 7 8 4")},
    ),
    "goes_on": (
        operation(0, "put 3", 0, None) + operation(0, "put 4", 5, 6) + operation(0, "get", 7, 8, "3"),
        {"only": log("lawful", "1 write 0 null 3", "0 write 5 6 4", "0 read 7 8 3")},
    ),
    "unsorted": (
        operation(0, "get", 7, 8, "3") + operation(0, "put 3", 0, 5),
        {"only": log("lawful", "0 write 0 5 3", "0 read 7 8 3")},
    ),
    "two_at_once": (operation(0, "put 3", 0, 5) + operation(0, "get", 5, 8, "3"), "line 2: 0 begins before it has ended line 1"),
    "backwards": (operation(0, "put 3", 5, 4), "line 1: this operation ends before it begins, or at no time"),
    "time_of_a_word": (operation(0, "put 3", '"5"', 4), 'line 1: a time is a number from 0 on, of at most 64 bits, and not "5"'),
    "time_below": (operation(0, "put 3", -5, 4), "line 1: a time is a number from 0 on, of at most 64 bits, and not -5"),
    "time_beyond": (operation(0, "put 3", 5, 2**64), "line 1: this operation ends before it begins, or at no time"),
    "client_below": (operation(-1, "put 3", 0, 5), "line 1: a process has a number from 0 on, of at most 64 bits, and not -1"),
    "client_beyond": (operation(2**64, "put 3", 0, 5), f"line 1: a process has a number from 0 on, of at most 64 bits, and not {2**64}"),
    "client_of_a_word": (operation('"a"', "put 3", 0, 5), 'line 1: a process has a number from 0 on, of at most 64 bits, and not "a"'),
    "no_operation": (operation(0, "put 3", 0, 5) + '{"why":1}\n', "line 2: this is neither an operation nor an event"),
    "no_object": (operation(0, "put 3", 0, 5) + "7\n", "line 2: this is no object"),
    "no_input": ('{"ClientId":0,"Call":1,"Return":2}\n', "line 1: an input is an object with an Op"),
    "no_json": (operation(0, "put 3", 0, 5) + "{\n", "line 2: no JSON"),
    "endless": (operation(0, "put 1e999", 0, 5), "line 1: no JSON, or a number that is too large"),
    "infinite": (operation(0, "put Infinity", 0, 5), "line 1: no JSON, or a number that is too large"),
    "deep": ('{"a":' + "[" * 100000 + "\n", "line 1: nested too deep"),
    "half": (operation(1, "put 3", 0, 5) + operation(0, 'put "\\ud800"', 0, 5), "line 2: a text with half a letter"),
    "maps": (
        operation(0, 'put {"a":1,"b":[2,null]}', 0, 5) + operation(1, "get", 6, 7, '{"Value":{"b":[2,null],"a":1}}'),
        {"only": log("lawful", '0 write 0 5 "{\\"a\\" 1, \\"b\\" [2 nil]}"', '1 read 6 7 "{\\"a\\" 1, \\"b\\" [2 nil]}"')},
    ),
    "counted": (
        operation(0, "swap 3", 0, 5) + operation(0, "put 3", 6, 7) + operation(0, "put 3", 8, 9) + operation(0, "append 3", 10, 11),
        "line 1: swap is no read, write or cas\nof 4 operations 2 can't be said: 1 of kind `swap`, 1 of kind `append`",
    ),
    "events": (
        EVENT(0, '"call"', '{"op":"write","value":1}', '"a"') + EVENT(1, "false", '{"op":"read"}', 2) + EVENT(0, '"return"', "null", '"a"')
        + EVENT(1, "true", "1", 2),
        {"only": log("lawful", "0 write 0 2 1", "1 read 1 3 1")},
    ),
    "event_without_a_call": (EVENT(0, '"return"', "null", 1), "line 1: 1 ends what it hadn't begun"),
    "event_of_another_kind": (EVENT(0, '"cull"', "null", 1), 'line 1: "cull" is neither a call nor a return'),
    "event_with_a_list": (EVENT(0, '"call"', '{"op":"write","value":1}', "[1]"), "line 1: an Id is a number or a text"),
    "event_twice": (
        EVENT(0, 0, '{"op":"write","value":1}', 1) + EVENT(1, 0, '{"op":"write","value":2}', 1),
        "line 2: 1 begins again before line 1 has ended",
    ),
    "events_at_once": (
        EVENT(0, 0, '{"op":"write","value":1}', 1) + EVENT(0, 0, '{"op":"write","value":2}', 2) + EVENT(0, 1, "null", 1) + EVENT(0, 1, "null", 2),
        "line 2: 0 begins before it has ended line 1",
    ),
    "counted_events": (
        EVENT(0, 0, '{"op":"append","value":1}', 1) + EVENT(0, 1, "1", 1),
        "line 1: append is no read, write or cas\nof 1 operations 1 can't be said: 1 of kind `append`",
    ),
    "etcd": (
        put(0, "a", 10, 20, '{"Txn":{"Failure":false},"Revision":2}') + get(1, 30, 40, shown("a", 2)) + put(0, "a", 50, 60, '{"Revision":3}')
        + get(1, 70, 80, shown("a", 2)) + get(2, 1, 2, "null"),
        {
            "k": log("unlawful crossed 3 5 5 6", '2 read 1 2 "nil"', '0 write 10 20 "[2 \\"a\\"]"', '1 read 30 40 "[2 \\"a\\"]"',
                     '0 write 50 60 "[3 \\"a\\"]"', '1 read 70 80 "[2 \\"a\\"]"')
        },
    ),
    "etcd_failed": (
        put(0, "a", 10, 20, '{"Error":"timeout"}') + put(0, "b", 30, 40, '{"Revision":3}') + put(0, "c", 50, 60, "null") + get(1, 70, 80, shown("a", 2)),
        {"k": log("lawful", '2 write 10 null "[2 \\"a\\"]"', '0 write 30 40 "[3 \\"b\\"]"', '1 read 70 80 "[2 \\"a\\"]"')},
    ),
    "etcd_found": (
        put(0, "a", 10, 20, '{"Error":"timeout"}')
        + '{"ClientId":1,"Input":{"Op":"cas","Key":"k","From":1,"To":5},"Call":30,"Output":{"Ok":false,"Value":[2,"a"]},"Return":40}\n',
        {"k": repeats("lawful", '0 write 10 null "[2 \\"a\\"]"', '1 cas 30 40 1 5 false "[2 \\"a\\"]"')},
    ),
    "etcd_counted": (
        put(0, "a", 10, 20, '{"Revision":2}', ',{"Type":"range-operation"}') + get(1, 30, 40, "null", end="l") + get(1, 50, 60, "null", revision=1)
        + '{"ClientId":0,"Input":{"Type":"compact"},"Call":70,"Output":{},"Return":80}\n',
        "line 1: txn of other than one put is no read, write or cas\nof 4 operations 4 can't be said: "
        "2 of kind `range of several keys or of an old revision`, 1 of kind `txn of other than one put`, 1 of kind `compact`",
    ),
    "etcd_without_a_part": (
        '{"ClientId":0,"Input":{"Type":"range"},"Call":70,"Output":{},"Return":80}\n', "line 1: a part of this operation is missing"),
    "opening": (operation(0, "get", 1, 2, "5"), {"only": log("lawful", "0 read 1 2 5", opening="5")}, ("--opening", "5")),
    "cas": (
        operation(0, "put 3", 0, 5) + cas(1, "3 4", 6, 7, "true") + cas(2, "3 5", 8, 9, "false") + cas(1, "3 5", 10, 11, '{"Ok":false,"Value":4}')
        + cas(2, "4 6", 12, None, "true") + cas(1, "6 7", 13, 14) + cas(3, "7 8", 15, 16, '{"Ok":null}') + cas(4, "8 9", 17, 18, '{"ok":true}'),
        {
            "only": repeats("lawful", "0 write 0 5 3", "1 cas 6 7 3 4 true", "2 cas 8 9 3 5 false", "1 cas 10 11 3 5 false 4", "2 cas 12 null 4 6 null",
                            "1 cas 13 null 6 7 null", "3 cas 15 null 7 8 null", "4 cas 17 18 8 9 true")
        },
    ),
    "cas_found_what_it_asked_for": (
        operation(0, "put 3", 0, 5) + cas(1, "3 4", 6, 7, '{"Ok":false,"Value":3}'), "line 2: this cas found what it asked for on line 2, and did nothing"),
    "cas_found_half": (
        operation(0, "put 3", 0, 5) + cas(1, "3 4", 6, 7, '{"Ok":false,"Value":"\\ud800"}'), "line 2: a text with half a letter"),
    "cas_backwards": (cas(1, "3 4", 6, 5, "false"), "line 1: this operation ends before it begins, or at no time"),
    "cas_without_a_part": (operation(0, "cas 3", 0, 5), "line 1: a cas has a From and a To"),
    "cas_events": (
        EVENT(0, 0, '{"op":"cas","from":null,"to":1}', 1) + EVENT(1, 0, '{"op":"cas","from":null,"to":2}', 2) + EVENT(0, 1, "true", 1)
        + EVENT(1, 1, '{"ok":false,"value":1}', 2),
        {"only": repeats("lawful", '0 cas 0 2 "nil" 1 true', '1 cas 1 3 "nil" 2 false 1')},
    ),
    "cas_timed_out": (
        "INFO  jepsen.util - 0\t:invoke\t:cas\t[nil 3]\nINFO  jepsen.util - 0\t:info\t:cas\t:timed-out\n"
        "INFO  jepsen.util - 1\t:invoke\t:cas\t[3 4]\nINFO  jepsen.util - 1\t:fail\t:cas\t:timed-out\n"
        "INFO  jepsen.util - 2\t:invoke\t:cas\t[4 5]\nINFO  jepsen.util - 2\t:fail\t:cas\t[4 5]\n"
        "INFO  jepsen.util - 3\t:invoke\t:read\tnil\nINFO  jepsen.util - 3\t:ok\t:read\t4\n",
        {"only": repeats("lawful", '0 cas 0 null "nil" 3 null', "1 cas 2 null 3 4 null", "2 cas 4 5 4 5 false", "3 read 6 7 4")},
        ("--failed-cas-missed",),
    ),
    "cas_and_more": ("INFO  jepsen.util - 0\t:invoke\t:cas\t[3 4] 5\n", "line 1: more than one value on a line"),
    "cas_of_no_event": ("INFO  jepsen.util - 0\t:invoke\t:cas\t[3 4\n", "line 1: this is no event"),
    "cas_of_keys": (
        keys('0 invoke put x "1"', '0 ok put x "1"', '0 invoke cas x ["1" "2"]', '0 ok cas x ["1" "2"]', "1 invoke get x nil", '1 ok get x "1"'),
        {
            "x": repeats("unlawful lost 4", '0 write 0 1 "\\"1\\""', '0 cas 2 3 "\\"1\\"" "\\"2\\"" true', '1 read 4 5 "\\"1\\""', opening='"\\"\\""')
        },
    ),
}
ALL = {f"{tool}_{name}": (*it, ())[:3] for tool, table in (("jepsen", JEPSEN), ("porcupine", PORCUPINE)) for name, it in table.items()}
