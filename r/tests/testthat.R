library(testthat)
library(shadowr)

test_check("shadowr")
