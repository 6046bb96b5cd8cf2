"""Vectors of the whole node: scripts of calls, by the lines of `node_lines`; what each line prints."""

from node_lines import Program
from script import Script
from scripts_events import build_aborts, build_errors, build_kinds, build_masks, build_ranges, build_room, build_times, event_counts
from scripts_events import event_lengths, event_series, event_soup, exclusion, read_events, read_meanwhile
from scripts_flash import bad_sectors, directories, every_sector, files, long_files
from scripts_lengths import erasing_lengths, shown_lengths, wrong_lengths
from scripts_list import kept_lists, list_deletes, list_frequencies, list_is_full, list_meanwhile, list_refusals, list_room, list_segments
from scripts_list import list_turns, list_writes
from scripts_memory import headers, loads, long_segments, runs_of_memory, segments
from scripts_names import doubled_names, kept_twice, one_being_erased, one_that_counts
from scripts_remains import nothing_behind, remains, remains_come_and_go
from scripts_replies import between_packets, dropped_between, every_end, everyone_in_packets, kept_replies, leftovers, long_counts
from scripts_replies import not_of_a_group, packet_errors, packet_room, packet_times, received_ranges, single_words, whole_or_divided
from scripts_requests import command_numbers, counts, first_bytes, lengths, small_commands, start_masks
from scripts_series import series_ask, series_empty, series_fill, series_go_on, series_lent, series_numbers, series_of_commands, series_of_each
from scripts_series import series_of_long_writes, series_of_writes, series_past_the_end, series_room, series_soup, series_while_pending
from scripts_series import series_without_words
from scripts_slaves import groups, room, singles, tallies, times
from scripts_states import refusals, soup, start_refusals, states
from scripts_writes import areas, divisions, kept_writes, long_reads, many_packets, most_words, others_meanwhile, packet_cases
from scripts_writes import while_erasing, with_a_request_pending
from words import words_of

SCRIPTS = (
    start_refusals, refusals, states,
    first_bytes, lengths, command_numbers, small_commands, counts,
    files, every_sector, long_files, bad_sectors, directories,
    runs_of_memory, segments, headers, long_segments, loads,
    groups, room, times, tallies, singles,
    soup,
    packet_cases, areas, kept_writes, many_packets, divisions, long_reads, most_words, while_erasing, with_a_request_pending,
    others_meanwhile,
    start_masks,
    shown_lengths, wrong_lengths, erasing_lengths,
    remains, remains_come_and_go, nothing_behind,
    doubled_names, one_being_erased, one_that_counts, kept_twice,
    every_end, single_words, whole_or_divided, packet_room, long_counts, packet_times, packet_errors, leftovers, everyone_in_packets,
    dropped_between, between_packets, kept_replies, received_ranges, not_of_a_group,
    list_writes, list_segments, list_frequencies, list_is_full, list_room, list_deletes, list_turns, list_meanwhile, kept_lists, list_refusals,
    series_of_commands, series_of_each, series_go_on, series_without_words, series_of_writes, series_of_long_writes, series_ask, series_numbers,
    series_while_pending, series_room, series_fill, series_lent, series_past_the_end, series_empty, series_soup,
    build_kinds, build_masks, build_aborts, event_lengths, read_events, read_meanwhile, event_series, event_counts, exclusion, build_errors,
    build_times, build_room, build_ranges, event_soup,
)


def inputs():
    script = Script(7)
    for part in SCRIPTS:
        part(script)
    return "".join(script.lines)


def outputs(stdin):
    program = Program()
    return "".join(program.line(words_of(line)) + "\n" for line in stdin.splitlines())
