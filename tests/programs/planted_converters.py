"""Wrong converters, which their test must refuse: each is one edit of a file of tools/convert/, or of python/nidzaru_check.py.

    planted_converters.py [WORD..]     with words those edits alone whose names have one of them

An edit's old text stands once in its file; blanks match any others. The histories that are named have to pass over the files as they are,
and one of them has to fail over the edited ones. The last line is the sums.
"""

import os
import re
import shutil
import subprocess
import sys
import tempfile

TOP = os.path.dirname(os.path.dirname(os.path.dirname(os.path.realpath(__file__))))
TOOLS = f"{TOP}/tools/convert"
MODULE = "nidzaru_check.py"
# What stands before a command, and so many seconds it may take.
BEFORE, LONGEST = [], 120

# The name of an edit, its file, the old text, the new one, and the histories of which one refuses it.
PLANTED = [
    ("a failure as unknown", "lines.py", 'call.failed_at = "failed", at', 'call.failed_at = "open", at', "jepsen_fail porcupine_fail porcupine_failed"),
    ("a failure as unknown (jepsen)", "jepsen.py", 'history.fail(line, who, kind, place if event.get(":error") is None else None)', "history.leave(line, who, kind)", "jepsen_fail"),
    ("a failure as unknown (porcupine)", "porcupine.py", "history.fail(line, who, kind, place)", "history.leave(line, who, kind)", "porcupine_fail"),
    ("a failure as done", "lines.py", 'call.failed_at = "failed", at', 'call.failed_at = "done", at', "jepsen_fail"),
    ("what is unknown as failed", "lines.py", 'self.returned(line, name, kind).fate = "open"', 'self.returned(line, name, kind).fate = "failed"', "jepsen_info"),
    ("a write that timed out as failed", "porcupine.py", 'if value == ":timed-out" and name != "read":', "if False:", "porcupine_timed_out"),
    ("a return at 0 as none", "porcupine.py", 'if row.get("Return") is None or', 'if not row.get("Return") or', "porcupine_returns_at_nothing"),
    ("no return as an end", "porcupine.py", 'if row.get("Return") is None or known is None:', "if known is None:", "porcupine_never_returns"),
    ("two operations of one client at once", "lines.py", "elif before and call.begin <= before.end:", "elif False:", "porcupine_two_at_once"),
    ("operations that touch", "lines.py", "call.begin <= before.end", "call.begin < before.end", "porcupine_two_at_once"),
    ("an end before its begin", "lines.py", "if not is_whole(at) or at < call.begin:", "if not is_whole(at):", "porcupine_backwards"),
    ("an end at no time", "lines.py", "if not is_whole(at) or at < call.begin:", "if at < call.begin:", "porcupine_time_beyond"),
    ("a begin at no time", "lines.py", "if not is_whole(at): raise Refused(line, f\"a time", "if False: raise Refused(line, f\"a time", "porcupine_time_below"),
    ("events without their key", "porcupine.py", 'event[":f"], event[":key"]', 'event[":f"], event.get(":key")', "porcupine_no_key"),
    ("lines that are skipped", "porcupine.py", 'if row.startswith("INFO") and ":nemesis" in row:', "if True:", "porcupine_no_line"),
    ("an unknown type (jepsen)", "jepsen.py", 'if event[":type"] not in TYPES:', "if False:", "jepsen_unknown_type"),
    ("an unknown type (porcupine)", "porcupine.py", 'raise lines.Refused(line, f":{moment} is no type")', "pass", "porcupine_unknown_type"),
    ("an end of another kind", "lines.py", "if call.kind != kind:", "if False:", "jepsen_other_kind jepsen_other_kind_fails"),
    ("an end without a begin", "lines.py", "or name not in self.under_way:", "or False:", "jepsen_no_begin"),
    ("an event's end without a begin", "porcupine.py", "elif name not in history.unsaid:", "elif False:", "porcupine_event_without_a_call"),
    ("a begin within another", "lines.py", "if name in self.under_way:", "if False:", "jepsen_twice.edn"),
    ("a process below 0", "lines.py", "and 0 <= it <=", "and it <=", "jepsen_below"),
    ("a process beyond 64 bits", "lines.py", "0 <= it <= GREATEST", "0 <= it", "jepsen_beyond"),
    ("2^64", "lines.py", "GREATEST = 2**64 - 1", "GREATEST = 2**64", "jepsen_greatest"),
    ("2^63", "lines.py", "GREATEST = 2**64 - 1", "GREATEST = 2**63", "jepsen_greatest"),
    ("true as 1", "lines.py", "and not isinstance(it, bool) and", "and", "jepsen_true"),
    ("any process that isn't one", "lines.py", 'if not is_whole(who): raise', 'if False: raise', "jepsen_keyword jepsen_text"),
    ("a process that is left out", "jepsen.py", 'if event[":process"] != ":nemesis":', 'if isinstance(event[":process"], int):', "jepsen_keyword jepsen_text"),
    ("the nemesis as a client", "jepsen.py", 'if event[":process"] != ":nemesis":', "if True:", "jepsen_register.edn jepsen_nemesis"),
    ("no operation", "jepsen.py", 'raise lines.Refused(line, "this is no operation of a history")', "continue", "jepsen_no_operation"),
    ("another key", "lines.py", 'if key and record_key(key["key"]) != call.key:', "if False:", "jepsen_other_key"),
    ("a value without a key", "jepsen.py", 'raise lines.Refused(line, "this value has no key")', "value = [None, value]", "jepsen_no_key"),
    ("a failure without a key", "jepsen.py", 'if keyed and event[":type"] in (":invoke", ":ok"):', "if keyed:", "jepsen_fail_without_key"),
    ("keys beside none", "jepsen.py", "if len(keyed) > 1:", "if False:", "jepsen_mixed.edn"),
    ("two keys in one file", "lines.py", "if names.setdefault(name, key) != key:", "if False:", "jepsen_same_names"),
    ("all keys in one log", "lines.py", "if len(logs) > 1:", "if False:", "jepsen_keys.edn"),
    ("another value of an end", "lines.py", 'if kind != "read" and value is not None and not', 'if False and not', "jepsen_other_value"),
    ("the value of the invocation", "lines.py", 'if kind == "read" or value is not None:', 'if kind == "read":', "jepsen_versions"),
    ("a part that differs", "lines.py", "return name_of(value) == name_of(known)", "return True", "jepsen_other_part"),
    ("a shorter value", "lines.py", "len(value) == len(known) and", "", "jepsen_shorter"),
    ("an unfinished version", "lines.py", "write.value, write.is_told = seen.value, True", "write.is_told = True", "jepsen_version_of_an_unfinished_write"),
    ("the later of two writes", "lines.py", "min(fitting, key=lambda it: it.begin)", "max(fitting, key=lambda it: it.begin)", "jepsen_version_of_an_unfinished_write"),
    ("one of two writes", "lines.py", "len(fitting) > 1 and (has_rivals or", "len(fitting) > 1 and (False or", "jepsen_two_versions_of_unfinished_writes"),
    ("a nil that is a value", "lines.py", "it.holes -= settled", "pass", "jepsen_nil_that_is_a_value"),
    ("a nil that is a value, for all others", "lines.py", "it.holes -= settled", "it.holes = frozenset() if settled else it.holes", "jepsen_version_beside_a_nil"),
    ("a nil that is a value where versions stand", "lines.py", "return stayed.difference(*(it.holes - holes_of(it.value) for it in told))", "return stayed",
     "jepsen_nil_and_a_version_at_one_place"),
    ("an unfinished write of two values", "lines.py", "write.value, write.is_told = seen.value, True", "write.value = seen.value", "jepsen_one_unfinished_version"),
    ("a nil that a read gives as what isn't known", "lines.py", 'not it.is_vague() or it.fate == "done" or is_any_kept or name_of(it.value) in names]',
     'it.kind != "write" or it.end is not None or not holes_of(it.value)]', "jepsen_nil_that_a_read_gives"),
    ("a nil beside a version as what isn't known", "lines.py", 'not it.is_vague() or it.fate == "done" or is_any_kept or name_of(it.value) in names]',
     'it.kind != "write" or it.end is not None or not holes_of(it.value)]', "jepsen_nil_behind_a_version"),
    ("a nil that a compare-and-set alone keeps", "lines.py", "for seen in (it for name, it in shown.items() if it.is_sure and", "for seen in (it for name, it in shown.items() if False and",
     "jepsen_nil_that_a_cas_keeps"),
    ("a nil that a compare-and-set keeps as no rival", "lines.py", "rivals = [seen for name, seen in shown.items() if name not in written]",
     "rivals = [seen for name, seen in shown.items() if name not in made]", "jepsen_nil_that_a_cas_keeps_of_two"),
    ("a nil at the end of a chain", "lines.py", "more = {left for asked, left in steps if asked in names} - names", "more = set()", "jepsen_nil_that_a_cas_leaves"),
    ("a nil that the second write has too", "lines.py", "or is_any_kept or name_of(it.value) in names", "or is_any_kept", "jepsen_nil_of_two_unfinished_writes"),
    ("a nil in place of a whole value", "lines.py", "if value is None: return frozenset([place])", "if value is None:\n        return frozenset([place] if place else [])",
     "jepsen_unfinished_nil"),
    ("a nil without a value at the end", "lines.py", "call.is_told = value is not None or call.value is None", "call.is_told = value is not None", "jepsen_nil_that_stays"),
    ("an end that told no version", "lines.py", "call.is_told = value is not None or call.value is None", "call.is_told = True", "jepsen_version_that_no_end_told"),
    ("a finished write of which nothing was seen", "lines.py", 'or it.fate == "done" or is_any_kept', "or is_any_kept", "jepsen_version_that_no_end_told"),
    ("an unfinished write in place of a finished one", "lines.py", '(has_rivals or any(it.fate == "done" for it in fitting))', "has_rivals",
     "jepsen_version_of_a_finished_write_or_not"),
    ("a write that another may have made", "lines.py", "if fitting and (others or", "if fitting and (False or", "jepsen_version_or_a_write jepsen_version_or_a_cas"),
    ("a write that may have taken no effect as made", "lines.py", 'for it in known if it.fate == "done" for value', "for it in known for value", "jepsen_version_or_a_write"),
    ("the first value that was seen", "lines.py", "sum(write.may_leave(it.value) for write in vague)", "0", "jepsen_versions_of_which_one_fits_one_write"),
    ("what may not have been there first", "lines.py", "key=lambda it: (not it.is_sure, sum(", "key=lambda it: (it.is_sure, sum(", "jepsen_version_that_a_cas_may_ask_for"),
    ("what a read gave as what may not have been there", "lines.py", "key=lambda it: not it.is_sure)", "key=lambda it: it.is_sure)", "jepsen_version_that_a_read_gives_too"),
    ("a miss as a write", "lines.py", "return [] if self.missed else [self.value[1]]", "return [self.value[1]]", "jepsen_version_that_a_miss_names"),
    ("what a miss asked for as seen", "lines.py", "[self.value[0]] if not self.missed else", "[self.value[0]] if True else", "jepsen_version_that_a_miss_asked_for"),
    ("what a miss found that isn't seen", "lines.py", "[] if self.found is None else [self.found]", "[]", "porcupine_etcd_found"),
    ("what a miss may have found", "lines.py", 'or is_any_kept or name_of', "or name_of", "jepsen_version_that_a_miss_found"),
    ("what a compare-and-set asked for as unseen", "lines.py", 'if self.kind == "cas": values =', "if False:\n            values =", "jepsen_version_that_a_cas_asks_for"),
    ("a null in JSON that may be anything", "porcupine.py", 'REVISION if is_etcd and kind == "write" else frozenset()', 'REVISION if is_etcd else lines.holes_of(value)',
     "porcupine_null_that_is_a_value"),
    ("a revision that is a null", "porcupine.py", 'REVISION if is_etcd and kind == "write" else frozenset()', "frozenset()", "porcupine_etcd_failed"),
    ("a version as a key", "jepsen.py", "is_pair(value) and value[0] is not None and", "is_pair(value) and", "jepsen_versions_without_keys"),
    ("a function that is no word", "jepsen.py", 'edn.text_of(event.get(":f")) in KINDS', 'event.get(":f") in KINDS', "jepsen_function_of_a_list"),
    ("an end of a list", "lines.py", "if not isinstance(name, (int, str)) or", "if", "jepsen_end_of_a_list"),
    ("a second vector", "edn.py", 'raise NoEdn(token[2], f"{token[1]} behind the vector")', "return", "jepsen_two_vectors"),
    ("what stands behind a vector", "edn.py", "elif is_over:", 'elif is_over and token[1] == "[":', "jepsen_more_behind_a_vector"),
    ("a vector that is closed twice", "edn.py", "elif is_over:", 'elif is_over and token[0] != "close":', "jepsen_closed_twice"),
    ("two words on a line", "porcupine.py", "if len(text.split()) > 1:", "if False:", "porcupine_two_events"),
    ("a key of no letters", "lines.py", 'if name[:1] in ("", ".") else', 'if name[:1] == "." else', "jepsen_names_that_hide"),
    ("a hidden file", "lines.py", 'if name[:1] in ("", ".") else', 'if name == "" else', "jepsen_names_that_hide"),
    ("a folder with another log", "lines.py", 'if name.endswith(".jsonl") and name not in texts:', "if False:", "streams"),
    ("a folder with the same log", "lines.py", 'if name.endswith(".jsonl") and name not in texts:', 'if name.endswith(".jsonl"):', "streams"),
    ("a folder with notes", "lines.py", 'if name.endswith(".jsonl") and name not in texts:', "if name not in texts:", "streams"),
    ("maps by the order of keys", "edn.py", '"{" + ", ".join(sorted(f"{key_text(key)} {text_of(it)}" for key, it in value.items())) + "}"',
     '"{" + ", ".join(f"{key_text(key)} {text_of(it)}" for key, it in value.items()) + "}"', "jepsen_maps porcupine_maps"),
    ("sets by their order", "edn.py", '" ".join(sorted(value))', '" ".join(value)', "jepsen_sets"),
    ("an infinite number", "edn.py", "if not math.isfinite(float(text)):", "if False:", "jepsen_endless"),
    ("an infinite number in JSON", "porcupine.py", 'if not float("-inf") < float(text) < float("inf"):', "if False:", "porcupine_endless"),
    ("Infinity", "porcupine.py", "parse_constant=refuse", "parse_constant=float", "porcupine_infinite"),
    ("texts as names", "edn.py", "if isinstance(value, Name): return str(value)", "if isinstance(value, str): return str(value)", "jepsen_kinds_of_values"),
    ("false as true", "edn.py", '"false": False', '"false": True', "jepsen_kinds_of_values"),
    ("fractions as they are written", "edn.py", "return float(text)", "pass", "jepsen_same_fraction"),
    ("letters as texts", "edn.py", "return Name(text) raise NoEdn", "return Text(text[1:])\n        raise NoEdn", "jepsen_kinds_of_values"),
    ("an array of one number", "lines.py", "2 <= len(value) <= 64", "1 <= len(value) <= 64", "jepsen_kinds_of_values"),
    ("a value that is written twice", "lines.py", "or len(set(written)) < len(written)", "", "jepsen_repeated.edn"),
    ("a write of the opening", "lines.py", "[name_of(self.opening), *(name_of(it.value) for", "[*(name_of(it.value) for", "jepsen_opening.edn"),
    ("a compare-and-set among values that are written once", "lines.py", 'any(it.kind == "cas" for it in calls) or', "", "jepsen_cas"),
    ("values that repeat where none does", "lines.py", "return self.repeats or any(", "return True or any(", "jepsen_register.edn"),
    ("values that repeat in another key's log", "lines.py", "if history.has_repeats(calls) else", "if history.has_repeats(history.calls) else", "jepsen_repeats_of_one_key"),
    ("a word for repeats that isn't heard", "lines.py", "history.repeats, history.failed_missed = words.repeats,", "history.repeats, history.failed_missed = False,", "jepsen_repeats"),
    ("a compare-and-set that failed as one that missed", "lines.py", "if self.failed_missed and call.kind", "if call.kind", "jepsen_cas_fails jepsen_cas.edn"),
    ("a write that failed as done", "lines.py", 'if self.failed_missed and call.kind == "cas" and', "if self.failed_missed and", "jepsen_cas_missed_other_failures"),
    ("a failure with an error as a miss", "jepsen.py", 'place if event.get(":error") is None else None', "place", "jepsen_cas_missed_other_failures"),
    ("a failure that isn't a miss", "jepsen.py", 'place if event.get(":error") is None else None', "None", "jepsen_cas_missed"),
    ("a failure that isn't a miss (porcupine)", "porcupine.py", "history.fail(line, who, kind, place)", "history.fail(line, who, kind)", "porcupine_cas_timed_out"),
    ("a miss that is left out", "lines.py", 'call.end, call.fate, call.missed = call.failed_at, "done", True', "pass", "jepsen_cas_missed"),
    ("a miss as a swap", "lines.py", 'call.failed_at, "done", True', 'call.failed_at, "done", False', "jepsen_cas_missed"),
    ("a miss as a swap (porcupine)", "lines.py", "call.missed, call.found = True, found", "call.missed, call.found = False, None", "porcupine_cas"),
    ("what was found that isn't told", "lines.py", "call.missed, call.found = True, found", "call.missed = True", "porcupine_cas"),
    ("what was found that isn't read", "porcupine.py", 'history.miss(line, name, at, names_in_lower(it).get("value"))', "history.miss(line, name, at)", "porcupine_cas"),
    ("a compare-and-set that found what it asked for", "lines.py", "if found is not None and name_of(found) ==", "if False and name_of(found) ==", "porcupine_cas_found_what_it_asked_for"),
    ("a compare-and-set of which nobody knows as swapped", "lines.py", 'None if self.fate == "open" else not self.missed', "not self.missed", "jepsen_cas_unknown"),
    ("a compare-and-set of which nobody knows that is left out", "lines.py", 'call.fate == "open" and call.kind != "read"', 'call.fate == "open" and call.kind == "write"', "jepsen_cas_unknown"),
    ("an answer of which nobody knows as a miss", "porcupine.py", "elif swapped is False:", "elif not swapped:", "porcupine_cas"),
    ("an answer as a swap", "porcupine.py", "if swapped is True:", "if swapped is not None:", "porcupine_cas"),
    ("an answer of an object as a swap", "porcupine.py", 'names_in_lower(it).get("ok") if isinstance(it, dict) else it', "True if isinstance(it, dict) else it", "porcupine_cas"),
    ("from and to the other way round", "lines.py", '"from": record_of(self.value[0]), "record": record_of(self.value[1])', '"from": record_of(self.value[1]), "record": record_of(self.value[0])', "jepsen_cas"),
    ("from and to the other way round (porcupine)", "porcupine.py", '[it["from"], it["to"]]', '[it["to"], it["from"]]', "porcupine_cas"),
    ("a compare-and-set without a part", "porcupine.py", 'if kind == "cas" and not {"from", "to"} <= it.keys():', "if False:", "porcupine_cas_without_a_part"),
    ("a compare-and-set of one value", "lines.py", 'if kind == "cas" and not is_exchange(value):', "if False:", "jepsen_cas_of_no_pair jepsen_cas_of_three"),
    ("a compare-and-set of three values", "lines.py", "isinstance(value, list) and len(value) == 2 and not (value[0]", "isinstance(value, list) and not (value[0]", "jepsen_cas_of_three"),
    ("a compare-and-set of versions", "lines.py", "and not (value[0] is None and isinstance(value[1], list))", "", "jepsen_cas_of_a_version"),
    ("another value of a compare-and-set", "lines.py", "and not fits(call.value, value, call.holes):", 'and kind != "cas" and not fits(call.value, value, call.holes):', "jepsen_cas_of_other_values"),
    ("a compare-and-set as a key and a value", "jepsen.py", 'and (event[":f"] != ":cas" or is_pair(value[1]))', "", "jepsen_cas_beside_no_key"),
    ("a compare-and-set that timed out as failed", "porcupine.py", 'if value == ":timed-out" and name != "read":', 'if value == ":timed-out" and name == "write":', "porcupine_cas_timed_out"),
    ("a half of two values", "porcupine.py", "if len(values) > 1:", "if False:", "porcupine_cas_and_more porcupine_two_events_of_keys"),
    ("two values without an end", "porcupine.py", "except edn.NoEdn: values = []", "except edn.NoEdn: values = [[3, 4]]", "porcupine_cas_of_no_event"),
    ("a version that a compare-and-set wrote", "lines.py", "if self.missed else [self.value[1]]", "if self.missed else [self.value[0]]", "jepsen_cas_that_a_read_shows"),
    ("half a letter that was found", "lines.py", "for value in (it.value, it.found)", "for value in [it.value]", "porcupine_cas_found_half"),
    ("half a letter of a compare-and-set", "lines.py", "for value in (it.value, it.found)", "for value in [it.found]", "jepsen_cas_of_half_a_letter"),
    ("what isn't said", "lines.py", "if self.untakeable: raise self.refusal()", "", "jepsen_append.edn jepsen_counted"),
    ("the last that isn't said", "lines.py", "first = min(self.untakeable", "first = max(self.untakeable", "jepsen_counted"),
    ("ends that are counted", "jepsen.py", 'elif event[":type"] == ":invoke": name', "else:\n            name", "jepsen_counted"),
    ("ends that are counted (porcupine)", "porcupine.py", 'if moment == "invoke": history.leave_out', "if True: history.leave_out", "porcupine_counted_keys"),
    ("times that aren't sorted", "lines.py", "for call in sorted(self.calls, key=lambda it: it.begin):", "for call in self.calls:", "porcupine_unsorted"),
    ("a client that goes on", "lines.py", "before.who = next(self.numbers)", "pass", "jepsen_goes_on porcupine_goes_on"),
    ("reads that never ended", "lines.py", 'call.fate == "open" and call.kind != "read"', 'call.fate == "open"', "jepsen_register.edn"),
    ("a status of 0", "lines.py", "return 3", "return 0", "jepsen_append.edn"),
    ("a status of 3 for a stream", "lines.py", "return 5", "return 3", "streams"),
    ("bytes that aren't UTF-8", "lines.py", "read.decode()", 'read.decode(errors="replace")', "jepsen_bytes"),
    ("half a letter", "lines.py", "text.encode()", "pass", "jepsen_half"),
    ("an opening that isn't heard", "lines.py", "history.opening = value", "pass", "jepsen_opening"),
    ("an opening of nil, taken for none", "lines.py", "history.opening = value", "history.opening = history.opening if value is None else value",
     "porcupine_opening_of_nil"),
    ("a begin that isn't widened", "join.py", 'row["begin"] = max(0, row["begin"] - skew)', "pass", "joined"),
    ("an end that isn't widened", "join.py", 'min(lines.GREATEST, row["end"] + skew)', 'row["end"]', "joined"),
    ("a time below 0", "join.py", 'max(0, row["begin"] - skew)', 'row["begin"] - skew', "joined"),
    ("a time beyond 64 bits", "join.py", 'min(lines.GREATEST, row["end"] + skew)', 'row["end"] + skew', "joined"),
    ("a first file that is widened", "join.py", "if not is_exact:", "if True:", "joined"),
    ("tasks that overlap themselves", "join.py", 'row["who"] = next(numbers)', "pass", "joined"),
    ("tasks that touch themselves", "join.py", 'row["begin"] <= before["end"]', 'row["begin"] < before["end"]', "joined"),
    ("tasks of two files", "join.py", "if owners.setdefault(who, it.path) != it.path:", "if False:", "joined"),
    ("headers that differ", "join.py", "if len(openings) != 1 or", "if not openings or", "joined"),
    ("headers of which one repeats", "join.py", "or len(repeats) > 1:", "or False:", "joined"),
    ("a header that says no more that records repeat", "join.py", "True if True in repeats else None", "None", "joined"),
    ("a header that says that records repeat, and doesn't", "join.py", 'it.get("repeats") is True', 'bool(it.get("repeats"))', "joined"),
    ("records that repeat as those of one write", "explain.py", 'if row.get("repeats") is True:', "if False:", "explained"),
    ("records that don't repeat as such that do", "explain.py", 'if row.get("repeats") is True:', 'if "repeats" in row:', "explained"),
    ("a file that was cut off", "join.py", 'if row.get("ops") != len(self.rows):', "if False:", "joined"),
    ("what a thread left that was cut off", "join.py", "if len(block) != STATE.size + (1 + room) * size or count > room:", "if False:", "joined"),
    ("what a thread left without its state", "join.py", "if len(block) < STATE.size:", "if False:", "joined"),
    ("operations that had no room", "join.py", "if lost or unpaired:", "if False:", "joined"),
    ("a write that was under way", "join.py", '(place, kind) == (count, KINDS.index("write"))', "False", "joined"),
    ("a write that had ended as under way", "join.py", '(place, kind) == (count, KINDS.index("write"))', 'kind == KINDS.index("write")', "joined"),
    ("words that were kept and are left out", "join.py", 'if kept else row', 'if False else row', "joined"),
    ("words that nobody kept", "join.py", "list(words[:kept])", "list(words)", "joined"),
    ("more words than have room", "join.py", "or kept > len(words):", "or False:", "joined"),
    ("the words of another opening", "join.py", 'if "words" in it and it.get("opening") == header["opening"]', 'if "words" in it', "joined"),
    ("a header without its words", "join.py", '"words": kept, "limit"', '"limit"', "joined"),
    ("a record without words beside them", "explain.py", 'if "words" in row else None return', "if False else None\n    return", "explained"),
    ("words of the first write that has one", "explain.py", "(len(places), it.begin) > best[at][:2]", "False", "explained"),
    ("words of the latest write that has one", "explain.py", "(len(places), it.begin) > best[at][:2]", "it.begin > best[at][1]", "explained"),
    ("a write that touches as one before", "explain.py", "if one.end < it.begin),", "if one.end <= it.begin),", "explained"),
    ("the first write before", "explain.py", "before = max((one for", "before = min((one for", "explained"),
    ("a write that touches the end as one behind", "explain.py", "if one.begin <= it.end and", "if one.begin < it.end and", "explained"),
    ("a write that touches the begin as one before", "explain.py", "and one.end >= it.begin and", "and one.end > it.begin and", "explained"),
    ("an operation beside itself", "explain.py", "and one is not it]", "]", "explained"),
    ("what never ended as torn", "explain.py", "and it.end != NEVER and it.record not in", "and it.record not in", "explained"),
    ("bytes in another order", "explain.py", 'word.to_bytes(8, "little")', 'word.to_bytes(8, "big")', "explained"),
    ("the first bytes alone", "explain.py", "if first and last:", "if first:", "explained"),
    ("writes that aren't counted", "explain.py", "if left[MOST:]:", "if False:", "explained"),
    ("a write behind the end that ran with it", "explain.py", '"began behind its end" if it.begin > other.end else relation', "relation", "explained"),
    ("an end at a begin as before it", "explain.py", "before.end < behind.begin and", "before.end <= behind.begin and", "explained"),
    ("two lines of one record", "explain.py", "before.record != behind.record and", "", "explained"),
    ("lines of no write", "explain.py", "{before.record, behind.record} <= log.written.keys()", "True", "explained"),
    ("any four lines as records that cross", "explain.py",
     "if len(ops) == 4 and (ops[0].record, ops[1].record) == (ops[3].record, ops[2].record):", "if len(ops) == 4:", "explained"),
    ("any two lines as of the opening", "explain.py",
     "if len(ops) == 2 and log.written[ops[1].record].line == 1:", "if len(ops) == 2:", "explained"),
    ("a stream that takes nothing, of join.py", "join.py", "sys.stdout.flush()", "pass", "joined"),
    ("a folder that is there", "lines.py", "exist_ok=True", "exist_ok=False", "streams"),
    ("a stream that takes nothing", "lines.py", "sys.stdout.flush()", "pass", "streams"),
    ("a pipe that is read twice", "join.py", "self.take_lines(block)", 'self.take_lines(open(path, "rb").read())', "joined"),
    ("an operation that has no end", "join.py", 'if "end" not in row: return False', 'row.setdefault("end")', "joined"),
    ("a limit that is no number", "join.py", 'or lines.is_whole(row["limit"])', "or True", "joined"),
    ("a number below 0", "join.py", "if int(word) < 0:", "if False:", "joined"),
    ("a file that isn't UTF-8 and has no name", "join.py", 'f"{self.path}:{why.line}"', "why.line", "joined"),
    ("a stream that takes nothing, of nidzaru_check.py", "nidzaru_check.py", 'except OSError: return _fail("write failed")', "except OSError:\n        raise", "asked"),
    ("a stream that gives nothing, of nidzaru_check.py", "nidzaru_check.py", 'except OSError: return _fail("read failed")', "except OSError:\n        raise", "asked"),
    ("a library that isn't there, of nidzaru_check.py", "nidzaru_check.py", 'if __name__ != "__main__": raise', "raise", "asked"),
    ("letters of the environment, of nidzaru_check.py", "nidzaru_check.py",
     'with open(1 if answer.status <= 1 else 2, "wb", closefd=False) as stream: stream.write(answer.text.encode())',
     "print(answer.text, end='', file=sys.stdout if answer.status <= 1 else sys.stderr, flush=True)", "asked"),
    ("what a stream didn't take, told twice", "join.py", "sys.stdout = None", "pass", "joined"),
    ("lines as they come", "join.py", 'key=lambda row: row["begin"]', 'key=lambda row: row["who"]', "joined"),
    ("texts as keys", "edn.py", "Map(zip(map(text_of, items[::2]), items[1::2]))", "Map(zip(map(str, items[::2]), items[1::2]))", "jepsen_keys_of_maps"),
    ("an end stamped before its call", "recorder.py", 'head = self.begin("read") given = call() self.last_end = self.clock()',
     'head = self.begin("read")\n        self.last_end = self.clock()\n        given = call()', "recorded"),
    ("operations that touch in Python", "recorder.py", "while now <= self.last_end:", "while now < self.last_end:", "recorded"),
    ("an end that isn't kept in Python", "recorder.py", "self.last_end = self.clock() is_there = took_effect(given) end = str(self.last_end)",
     "end = str(self.clock())\n            is_there = took_effect(given)", "recorded"),
    ("a write without an effect in Python", "recorder.py", "is_there = took_effect(given)", "took_effect(given)", "recorded"),
    ("a write that failed in Python", "recorder.py", '"null", True', '"null", False', "recorded"),
    ("a write that was interrupted in Python", "recorder.py", "given = call() self.last_end = self.clock() is_there",
     "given = call()\n            is_there = False\n            self.last_end = self.clock()\n            is_there", "recorded"),
    ("a write whose effect can't be told in Python", "recorder.py", "is_there = took_effect(given)", "is_there = False\n            is_there = took_effect(given)", "recorded"),
    ("an end of a write whose effect can't be told", "recorder.py", "is_there = took_effect(given) end = str(self.last_end)",
     "end = str(self.last_end)\n            is_there = took_effect(given)", "recorded"),
    ("a record that is no JSON, seen behind its call", "recorder.py",
     'tail, end, is_there = tail_of(record), "null", True head = self.begin("write") try: given = call()',
     'end, is_there = "null", True\n        head = self.begin("write")\n        try:\n            given = call()\n            tail = tail_of(record)', "recorded"),
    ("lines that a killed program loses", "recorder.py", "self.to.write(head + end + tail) self.to.flush()", "self.to.write(head + end + tail)", "recorded"),
    ("a put that failed", "porcupine.py", 'or it.get("Error") or not it.get("Revision"):', "or False:", "porcupine_etcd_failed"),
    ("a put without its revision", "porcupine.py", 'return [[it["Revision"], value[1]]]', "return [[None, value[1]]]", "porcupine_etcd"),
    ("a range of several keys", "porcupine.py", 'if options.get("End") or it["Range"].get("Revision"):', "if False:", "porcupine_etcd_counted"),
    ("a txn of two", "porcupine.py", 'kinds != ["put-operation"]', 'kinds[0] != "put-operation"', "porcupine_etcd_counted"),
]


def run(*words):
    try:
        done = subprocess.run([*BEFORE, sys.executable, *words], capture_output=True, text=True, timeout=LONGEST, check=False)
    except subprocess.TimeoutExpired:
        return False, "it didn't end"
    return done.returncode == 0, done.stdout + done.stderr


def passes(folder, names):
    """Whether these histories pass, and, if they are among them, what is joined, explained and recorded in Python."""
    histories = [name for name in names if name not in ("joined", "recorded", "explained", "asked")]
    well, said = run(f"{TOP}/tests/programs/converters.py", "--here", "--tools", folder, *histories) if histories else (True, "")
    if well and "recorded" in names:
        well, said = run(f"{TOP}/tests/programs/recorded.py", "--tool", folder)
    if well and "asked" in names:
        well, said = run(f"{TOP}/tests/library/in_memory.py", "--streams", f"{folder}/nidzaru_check.py")
    if well and "explained" in names:
        well, said = run(f"{TOP}/tests/programs/explained.py", "--tool", f"{folder}/explain.py")
    if well and "joined" in names:
        return run(f"{TOP}/tests/programs/joined.py", "--tool", f"{folder}/join.py", "--logs", "3")
    return well, said


def path_of(name):
    return f"{TOP}/python/{name}" if name == MODULE else f"{TOOLS}/{name}"


def why_not_refused(folder, name, old, new, names):
    """Nothing if the edit is refused."""
    with open(path_of(name), encoding="utf-8") as file:
        text = file.read()
    pattern = r"\s+".join(re.escape(word) for word in old.split())
    found = len(re.findall(pattern, text))
    if found != 1:
        return f"its old text stands {found} times in {name}"
    with open(f"{folder}/{name}", "w", encoding="utf-8") as file:
        file.write(re.sub(pattern, lambda _: new, text))
    well, _ = passes(folder, names.split())
    shutil.copy(path_of(name), folder)
    return f"{names} pass" if well else None


def main(words):
    edits = [it for it in PLANTED if not words or any(word in it[0] for word in words)]
    with tempfile.TemporaryDirectory() as room:
        folder = f"{room}/tools"
        shutil.copytree(TOOLS, folder)
        shutil.copy(path_of(MODULE), folder)
        well, said = passes(folder, sorted({name for it in edits for name in it[4].split()}))
        failed = [] if well else [f"the converters: FAILED as they are: {said}"]
        if why_not_refused(folder, "lines.py", '"""A record as a word, by which records are compared."""', "", "jepsen_fail") is None:
            failed.append("planted: a comment that is dropped: FAILED: it counts as refused")
        for name, *edit in edits:
            why = why_not_refused(folder, *edit)
            if why:
                failed.append(f"planted: {name}: FAILED: {why}")
    for it in failed:
        print(f"test: {it}")
    print(f"{len(edits) + 2 - len(failed)} passed, {len(failed)} failed")
    return 1 if failed or not edits else 0


if __name__ == "__main__":
    sys.exit(main(sys.argv[1:]))
