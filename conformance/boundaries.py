"""The table of boundaries: for each rule of document 01 a case on each side of its limit (rows.py says what a row is)."""
import rules_done
import rules_fields
import rules_judged
import rules_lent
import rules_log
import rules_rescue
import rules_tenants
import rules_twice
from rows import Rows

SECTIONS = (rules_lent.refusals, rules_lent.store_rules, rules_lent.record_rules, rules_log.lent_readings, rules_fields.frames, rules_fields.varints,
            rules_fields.tags, rules_fields.wire_types, rules_fields.repeating, rules_fields.cut, rules_fields.unlisted, rules_fields.numbers,
            rules_judged.judgement, rules_judged.bodies, rules_judged.acl_rules, rules_judged.who, rules_tenants.neighbours,
            rules_tenants.ranges, rules_tenants.one_scope, rules_tenants.allowed, rules_tenants.tablets, rules_done.operations, rules_done.replies,
            rules_done.readings, rules_done.tempting, rules_log.requests, rules_log.parts, rules_log.floats, rules_lent.other_calls, rules_lent.signatures,
            rules_twice.values, rules_twice.messages, rules_twice.decodes, rules_twice.security, rules_twice.commands,
            rules_rescue.lengths, rules_rescue.reports, rules_rescue.order, rules_rescue.bytes_of_a_block, rules_rescue.chain)


def all_rows():
    rows = Rows()
    for section in SECTIONS:
        section(rows)
    return rows
