"""A plain, slow reference program: the definitions of the network, computed.

Each module follows the definitions of some crates, with their names: a function here computes the definition of its name, on
values that are built as there. Identifiers of nodes, VRFs, sites and interfaces are numbers, communities and route
distinguishers are their octets, and an Option is None or the value. A function over the nodes, the directions of sessions or
the links of a scenario is kept as a table.
"""
