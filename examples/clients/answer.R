#!/usr/bin/env Rscript
# An answer as a data frame.
server <- Sys.getenv("SERVER", "http://127.0.0.1:8080")
query <- "slice pay by region.area where time.month=Jan"
pay <- read.csv(paste0(server, "/v1/query?q=", URLencode(query, reserved = TRUE)), check.names = FALSE)
print(pay)
