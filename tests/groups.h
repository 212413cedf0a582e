/*
 * groups.h: the groups of the comparison, in the order in which they run
 *
 * A group is one row: GROUP(name, function, least). The name is what the program
 * prints; the group has to make at least so many checks. A file that includes this
 * one defines GROUP first: compare.h makes a prototype of each row, compare.c an
 * entry of its table. So there is no include guard.
 */

/* compare_calls.c: codes, handles, packets and what is written */
GROUP("fresh tables", fresh_tables, 1000)
GROUP("table lengths", table_lengths, 310)
GROUP("RegisterClient's attributes", register_attributes, 500)
GROUP("RegisterClient's packet", register_packets, 60)
GROUP("16 and 17 clients", client_limit, 60)
GROUP("handles", handles, 600)
GROUP("the last handles", last_handles, 20)
GROUP("DeregisterClient of a holder", deregister_in_use, 100)
GROUP("card in, card out", cards, 500)
GROUP("sharers", sharers_counted, 300)
GROUP("wide numbers", wide_numbers, 7000)
GROUP("every service number", every_service, 65536)
GROUP("every service number, broken table", every_service_broken, 65536)
GROUP("a broken table comes first", broken_before_anything, 1490)

/* compare_resources.c: AdjustResourceInfo where nobody holds anything */
GROUP("AdjustResourceInfo's length, action and resource", adjust_lengths, 3000)
GROUP("AdjustResourceInfo's attributes and lines", adjust_attributes, 10000)
GROUP("levels added and removed", levels_managed, 300)
GROUP("levels shown", levels_walked, 500)
GROUP("bases and counts at their limits", port_limits, 10000)
GROUP("ports already managed", ports_managed_already, 200)
GROUP("all ports in one range", whole_port_space, 100)
GROUP("ranges that adjoin", adjoining_ranges, 150)
GROUP("Remove by base and count", removed_by_base_and_count, 60)
GROUP("ranges in order of base", ranges_in_order, 5000)
GROUP("32 and 33 ranges", room_for_ranges, 1000)
GROUP("ranges shown", ranges_walked, 5000)
GROUP("ranges too large for a short packet", large_ranges_shown, 50)
GROUP("AdjustResourceInfo's handle", given_handles, 300)
GROUP("N5 and N12", resource_cases, 15)
GROUP("bytes of what is managed", resource_bytes, 20)
GROUP("other calls beside what is managed", other_calls_beside, 30)

/* compare_holders.c: AdjustResourceInfo beside live grants */
GROUP("levels that are held", levels_held, 300)
GROUP("the lowest holder", lowest_holder, 200)
GROUP("one client holds all", one_client_holds_all, 15)
GROUP("ports that hold a range", ports_that_hold, 1000)
GROUP("held ports at both ends", ports_at_both_ends, 40)
GROUP("holders that share", sharing_holders, 2000)
GROUP("aliases hold nothing", aliases_hold_nothing, 720)
GROUP("a full table shown and removed", full_table_walked, 300)
GROUP("random sets shown and removed", random_holders, 10000)

/* compare_boot.c: the boot list */
GROUP("boot records", boot_records, 2500)
GROUP("where a boot list stops", boot_stops, 1000)
GROUP("a boot list's record in use", boot_in_use, 30)
GROUP("a boot list's broken end", boot_tails, 500)
GROUP("a boot list without a record", boot_nothing, 10)
GROUP("bytes that a boot list writes", boot_bytes, 6)
GROUP("boot lists of 48 and 49", boot_48, 5000)
GROUP("a boot list that ends at every place", boot_every_place, 15000)
GROUP("a boot list of 33 ranges", boot_33_ranges, 4)
GROUP("a boot list far too long", boot_far_too_long, 5)
GROUP("boot lists beside grants", boot_beside_grants, 20)
GROUP("boot lists on no table", boot_unformed, 40000)

/* compare_sockets.c: what the services that name a socket share, and the order
   of their checks */
GROUP("lengths of packets that name a socket", packet_lengths, 280)
GROUP("handles of calls that name a socket", packet_handles, 3900)
GROUP("stale handles", stale_handles, 160)
GROUP("what other clients hold", others_holdings, 58)
GROUP("sockets and functions", packet_sockets, 13000)
GROUP("cards in and out between calls", cards_between, 110)
GROUP("empty sockets", empty_sockets, 12000)
GROUP("the order of RequestIRQ's checks", request_irq_order, 36000)
GROUP("the order of ReleaseIRQ's checks", release_irq_order, 6000)
GROUP("the order of RequestSocketMask's checks", request_mask_order, 3600)
GROUP("the order of ReleaseSocketMask's checks", release_mask_order, 180)
GROUP("the order of RequestIO's checks", request_io_order, 82000)
GROUP("the order of ReleaseIO's checks", release_io_order, 3800)

/* compare_irq.c: RequestIRQ and ReleaseIRQ */
GROUP("RequestIRQ's attributes and IRQInfo1", irq_attributes, 70000)
GROUP("RequestIRQ's reserved attributes", irq_attributes_reserved, 20000)
GROUP("RequestIRQ's ignored fields", irq_fields_ignored, 700)
GROUP("levels that are named", irq_levels_named, 700)
GROUP("the choice of two levels", irq_choice_of_two, 2500)
GROUP("the choice of many levels", irq_choice_of_many, 6000)
GROUP("manners that go together", irq_joining, 10000)
GROUP("a level held in each manner", irq_each_manner, 150)
GROUP("eight sharers come and leave", irq_sharers, 400)
GROUP("ReleaseIRQ's attributes", release_attributes, 700)
GROUP("ReleaseIRQ of what others hold", release_of_others, 15000)
GROUP("ReleaseIRQ and a handle's two bytes", release_by_low_bytes, 15)
GROUP("a grant at every place", irq_every_place, 5000)
GROUP("a grant on every socket", irq_every_socket, 50)
GROUP("DeregisterClient of an IRQ's holder", irq_keeps_its_client, 140)
GROUP("two IRQ grants of a client", irq_two_of_a_client, 15)
GROUP("AdjustResourceInfo of a granted level", irq_keeps_its_level, 140)
GROUP("N6, N7, N10 and N11", irq_cases, 60)
GROUP("bytes of an IRQ grant", irq_bytes, 30)
GROUP("IRQ grants of a full table", irq_full_table, 140)

/* compare_irq_joining.c: levels that a sharing request joins before others */
GROUP("two levels, shared or not", irq_joins_of_two, 205000)
GROUP("many levels, shared or not", irq_joins_of_many, 23000)
GROUP("levels joined, by calls alone", irq_joins_by_calls, 150)
GROUP("one level of sixteen for eight that share", irq_joins_to_the_last, 140)

/* compare_io.c: RequestIO with a base that is named */
GROUP("RequestIO's attributes and lines", io_attributes, 22000)
GROUP("RequestIO's count", io_counts, 19000)
GROUP("RequestIO's second range", io_second_range, 3000)
GROUP("ports up to FFFF and past it", io_last_ports, 7500)
GROUP("ports that are managed", io_managed_ports, 24000)
GROUP("ports of many ranges", io_many_ranges, 330)
GROUP("ports that are shared", io_sharing, 3400)
GROUP("ports shared with seven", io_sharing_with_many, 760)
GROUP("eight share ports", io_eight_share, 170)
GROUP("decoded lines", io_lines, 13000)
GROUP("2F8 and 6F8", io_2f8_and_6f8, 1200)
GROUP("aliases of held ports", io_aliases, 42000)
GROUP("ports around a multiple of two to the lines", io_around_a_multiple, 150)
GROUP("N1 to N4, N8 and N9", io_cases, 220)

/* compare_io_choice.c: RequestIO with base 0 */
GROUP("base 0: multiples", io_multiples, 1900)
GROUP("base 0: the choice", io_choice, 420)
GROUP("base 0: ranges that lie alike", io_alike_chosen, 170)
GROUP("base 0: all ports chosen", io_all_chosen, 160)
GROUP("base 0: all ports barred", io_all_barred, 10)

/* compare_io_held.c: ReleaseIO, and what an I/O grant holds */
GROUP("ReleaseIO of what others hold", io_release_of_others, 5700)
GROUP("ReleaseIO's other fields", io_release_fields, 6100)
GROUP("ReleaseIO and a handle's two bytes", io_release_by_low_bytes, 36)
GROUP("an I/O grant at every place", io_every_place, 9200)
GROUP("an I/O grant on every socket", io_every_socket, 71)
GROUP("DeregisterClient of an I/O holder", io_keeps_its_client, 190)
GROUP("two I/O grants of a client", io_two_of_a_client, 44)
GROUP("I/O grants beside IRQ grants and masks", io_beside_others, 41)
GROUP("AdjustResourceInfo of granted ports", io_keeps_its_ranges, 250)
GROUP("holders by calls", io_holders_shown, 360)
GROUP("bytes of an I/O grant", io_bytes, 34)
GROUP("I/O grants of a full table", io_full_table, 240)

/* compare_io_worlds.c: RequestIO and ReleaseIO by chance */
GROUP("I/O by chance, small worlds", io_small_worlds, 215000)
GROUP("I/O by chance, large worlds", io_large_worlds, 22000)
GROUP("I/O by chance, few bases free", io_barred_worlds, 50000)

/* compare_io_answering.c: the ports at which a card answers */
GROUP("aliases with a port short, named", io_edges_named, 2500)
GROUP("aliases with a port short, base 0", io_edges_chosen, 1550)
GROUP("aliases with a port short, Remove", io_edges_removed, 11000)
GROUP("aliases with a port short, saved", io_edges_saved, 2900)
GROUP("sixteen lines have no alias", io_sixteen_lines, 140)
GROUP("base 0: aliases, by hand", io_choice_by_aliases, 70)
GROUP("6F8 is given once 2F8 is managed", io_given_6f8, 115)
GROUP("ports added, then asked for", io_added_then_asked, 2200)
GROUP("I/O by chance, where cards answer", io_answering_worlds, 100000)

/* compare_masks.c: RequestSocketMask and ReleaseSocketMask */
GROUP("every event mask", mask_events, 16000)
GROUP("a mask of no event", mask_of_no_event, 20)
GROUP("masks of every client and socket", masks_of_all, 1500)
GROUP("masks of one client, on one socket", masks_of_one, 600)
GROUP("masks of clients that move", masks_move, 45)
GROUP("masks of a full table", masks_of_a_full_table, 1000)
GROUP("masks beside IRQ grants", masks_beside_grants, 20)

/* compare_runs.c: many questions by chance, one after the other */
GROUP("runs from a fresh table", runs_from_fresh, 399000)
GROUP("runs from other sets", runs_from_sets, 402000)
GROUP("runs of grants and masks", runs_of_sockets, 494000)

/* compare_tables.c: which bytes are a table */
GROUP("sets written by hand", written_sets, 3700)
GROUP("random sets", random_sets, 800)
GROUP("one clause broken", broken_clauses, 132000)
GROUP("tables of the earlier layout", old_tables, 23000)
GROUP("grants that meet", meeting_grants, 4000)
GROUP("manners on a level", manners_on_a_level, 500)
GROUP("one byte damaged", damaged_bytes, 240000)
GROUP("one byte damaged of tables that calls made", damaged_tables, 130000)
