"""The client for maps with a root digest: `check(root, query, proof)` answers what a proof shows, or raises Refused."""
from .mrtree_check import Answer, AtlasAnswer, AtlasCount, Sheet, check_atlas, check_atlas_count
from .mrtree_check import Count, Join, Query, Record, Refused, State, Verdict, __version__, check, check_all
from .mrtree_check import check_count, check_join, distance, meet

__all__ = ["Answer", "Count", "Join", "Query", "Record", "Refused", "State", "Verdict", "__version__", "check"]
__all__ += ["AtlasAnswer", "AtlasCount", "Sheet", "check_atlas", "check_atlas_count"]
__all__ += ["check_all", "check_count", "check_join", "distance", "meet"]
