"""All cases, in their order: trials give bundles numbers by it."""

from . import (certificate_cases, chain_cases, entry_cases, envelope_cases, good_cases,
               identity_cases, leaf_cases, line_cases, proof_cases, root_cases, timestamp_cases)
from .registry import CASES

# The modules whose cases come first, and then those with cases at the edges of the conditions.
FIRST = [good_cases, line_cases, certificate_cases, leaf_cases, identity_cases, entry_cases,
         proof_cases, chain_cases, timestamp_cases, envelope_cases, root_cases]
EDGES = [line_cases, certificate_cases, leaf_cases, chain_cases, root_cases, timestamp_cases,
         entry_cases, proof_cases, identity_cases]

for module in FIRST:
    module.add()
for module in EDGES:
    module.add_edges()
line_cases.add_last()
