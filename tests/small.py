"""Small cubes that scripts of tests/ and examples/ ask, by name of their files: pay and hours of three cities in two months, and a grid of links."""

PAY = {
    "dims": """[[dimension]]
name = "region"
levels = ["city", "area"]
paths = [["Lyon", "South"], ["Nice", "South"], ["Paris", "North"]]
[[dimension]]
name = "time"
levels = ["month", "quarter"]
paths = [["Jan", "Q1"], ["Feb", "Q1"]]
[[measure]]
name = "pay"
[[measure]]
name = "hours"
""",
    "facts": "city,month,pay,hours\nLyon,Jan,10,1\nLyon,Feb,20,2\nNice,Jan,30,3\nParis,Jan,40,4\nParis,Feb,50,5\n",
    "policy": """[[measure]]
name = "pay"
method = "lattice"
[[measure]]
name = "hours"
method = "parity"
[[object]]
measure = "pay"
below = { region = "city", time = "month" }
""",
}

GRID = {
    "dims": """[[dimension]]
name = "row"
levels = ["r"]
paths = [["r0"], ["r1"]]
[[dimension]]
name = "col"
levels = ["c"]
paths = [["c0"], ["c1"], ["c2"]]
[[measure]]
name = "v"
""",
    "facts": "r,c,v\nr0,c1,7\nr1,c0,8\nr1,c2,9\n",
    "policy": "[[measure]]\nname = \"v\"\nmethod = \"parity\"\n",
}
