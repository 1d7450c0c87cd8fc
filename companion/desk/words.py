"""The words of the language that several parts of desk look for."""
RESERVED = frozenset("class predicate enum typedef extends new if else foreach in int float bool string true false "
                     "super".split())
CONSTRAINTS = ("eq", "neq", "allDiff", "lt", "leq", "addEq", "mulEq", "testEQ", "testLEQ")
RELATIONS = ("any", "before", "after", "meets", "met_by", "equals", "contains", "contained_by", "starts", "ends",
             "parallels", "paralleled_by", "starts_during", "contains_start", "ends_during", "contains_end")
POSTS = ("goal", "rejectable", "fact")
# The constraints that a session may post.
POSTED = tuple(word for word in CONSTRAINTS if word != "allDiff")
DECISIONS = ("specify", "activate", "merge", "reject")
# Those that a session may take besides those of a text.
FURTHER_DECISIONS = ("order", "post", "relate")
# The parts that every token has, in the order in which europa has them.
PARTS = ("object", "start", "end", "duration")
OBJECT, TIMELINE, REUSABLE, RESERVOIR, SETTINGS = "Object", "Timeline", "Reusable", "Reservoir", "PlannerConfig"
USES, PRODUCE, CONSUME = "uses", "produce", "consume"
