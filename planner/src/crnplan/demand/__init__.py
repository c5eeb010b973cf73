"""Makes laws of demand and of lead times from what was observed, and checks it. Here are names of methods."""
EMPIRICAL = "empirical"  # the method, and the family of a law that is what was seen
LEAD_METHODS = ("auto", EMPIRICAL)
# To plan seasons, or to follow levels, where the past of a class says so, or not.
SEASON_WAYS = AUTO, NONE = "auto", "none"
LEAST_DEMANDS = 2  # periods with demand, for a fit
