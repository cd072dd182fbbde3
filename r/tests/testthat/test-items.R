test_that("an ID stays a text, and a table without one takes the names of its rows", {
  expect_identical(shadow_items(data.frame(ID = c("007", "NA"), a = 1, b = 0))$ID, c("007", "NA"))
  named <- data.frame(a = c(1, 2), b = c(0, 1), row.names = c("x", "y"))
  expect_identical(shadow_items(named)$ID, c("x", "y"))
  expect_identical(names(shadow_items(data.frame(Item = "p", a = 1, b = 0))), c("ID", "a", "b"))
})

test_that("what is no table of items is refused", {
  expect_error(shadow_items(1:3), "class integer", class = "shadow_refused")
  expect_error(shadow_items(data.frame(ID = c("a", "a"), b = 0:1)), "ID a is there twice", class = "shadow_refused")
  expect_error(shadow_items(data.frame(ID = character(), b = numeric())), "no item", class = "shadow_refused")
  expect_error(shadow_items(matrix(1, 1, 1)), "names of its rows", class = "shadow_refused")
})

test_that("coefficients of ltm, tpm and rasch", {
  two <- cbind(Dffclt = c(-1, 0.5), Dscrmn = c(1.5, 0.7))
  rownames(two) <- c("x", "y")
  found <- shadowr:::of_dichotomous(two)
  expect_identical(found$MODEL, c("2PL", "2PL"))
  expect_identical(found$PAR1, c(1.5, 0.7))
  expect_identical(found$PAR2, c(-1, 0.5))
  three <- shadowr:::of_dichotomous(cbind(Gussng = c(0.2, 0.1), two))
  expect_identical(three$MODEL, c("3PL", "3PL"))
  expect_identical(three$PAR3, c(0.2, 0.1))
  expect_error(shadowr:::of_dichotomous(two[, 1, drop = FALSE]), "no column Dscrmn", class = "shadow_refused")
})

test_that("coefficients of grm and gpcm, also where items have other numbers of categories", {
  same <- rbind(x = c(Extrmt1 = -1, Extrmt2 = 1, Dscrmn = 1.4), y = c(-0.5, 0.5, 0.9))
  found <- shadowr:::of_steps(same, "GR")
  expect_identical(unlist(found[2, -(1:2)], use.names = FALSE), c(0.9, -0.5, 0.5))
  other <- shadowr:::of_steps(list(x = c(Catgr.1 = -1, Dscrmn = 1), y = c(Catgr.1 = 0, Catgr.2 = 1, Dscrmn = 2)), "GPC")
  expect_identical(unlist(other[1, -(1:2)], use.names = FALSE), c(1, -1, NA))
  expect_identical(unlist(other[2, -(1:2)], use.names = FALSE), c(2, 0, 1))
})

test_that("the matrix of mirt keeps its columns, and its items their names", {
  found <- shadow_items(cbind(a1 = c(x = 1.2, y = 0.7), d = c(-0.6, 0.1), g = c(0.2, 0), u = 1))
  expect_identical(names(found), c("ID", "a1", "d", "g", "u"))
  expect_identical(found$ID, c("x", "y"))
  expect_identical(found$d, c(-0.6, 0.1))
})

test_that("a model of ltm is read by its own method of coef", {
  registerS3method("coef", "ltm", function(object, ...) object$made, envir = asNamespace("stats"))
  table <- rbind(x = c(Dffclt = -1, Dscrmn = 1.5))
  found <- shadow_items(structure(list(made = table), class = "ltm"))
  expect_identical(unlist(found[1, -1]), c(MODEL = "2PL", PAR1 = "1.5", PAR2 = "-1"))
})
