"""All cases, by their points."""

from tests.truth import energy, people, quiet, refused, versions
from tests.truth.case import Case

CASES: list[Case] = [*energy.CASES, *refused.CASES, *people.CASES, *quiet.CASES, *versions.CASES]
