"""Routes after document 01, "Routes and shared links": ('in', node), a pair of neighbouring nodes for each hop, ('out', node)."""


def route(columns, source, destination):
    row, column = divmod(source, columns)
    last_row, last_column = divmod(destination, columns)
    nodes = [(row, column)]
    while column != last_column:
        column += 1 if column < last_column else -1
        nodes.append((row, column))
    while row != last_row:
        row += 1 if row < last_row else -1
        nodes.append((row, column))
    return [("in", nodes[0])] + list(zip(nodes, nodes[1:])) + [("out", nodes[-1])]
