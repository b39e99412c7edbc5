// Boards and sheets to begin with: those of docs/FORMATS.md.

export const EXAMPLES = {
    six: { title: "six holes, one strike", board: `# six points, one strike
rule 1  # EUC_2D
points 6
  1  95 94
  2  80 40
  3  37 28
  4  29 41
  5  2 61
  6  27 3
`, sheet: `strike 2-3, split at 6
  pair 2-5: split at 1
  pair 3-5: split at 1
    pair 2-4: crossing 1-4, centres 2 6
` },
    square: { title: "the square", board: `NAME : square
COMMENT : four holes, sides of 10
TYPE : TSP
DIMENSION : 4
EDGE_WEIGHT_TYPE : EUC_2D
NODE_COORD_SECTION
1 0 0
2 10 0
3 10 10
4 0 10
EOF
`, sheet: `# two lines for the square
strike 1-3, split at 2
strike 2-4, split at 1
` },
    weights: { title: "the square by weights, one fault", board: `NAME : square
COMMENT : the lengths of its edges, 1-2 1-3 1-4, 2-3 2-4, 3-4
TYPE : TSP
DIMENSION : 4
EDGE_WEIGHT_TYPE : EXPLICIT
EDGE_WEIGHT_FORMAT : UPPER_ROW
EDGE_WEIGHT_SECTION
10 14 10
10 14
10
EOF
`, sheet: `strike 1-3, split at 2
strike 1-2, split at 3
` },
};
