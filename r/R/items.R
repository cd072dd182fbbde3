# Item parameters as a data frame that `shadow bank` reads. The command recognises the convention; here columns are only named.

shadow_items <- function(x, ...) UseMethod("shadow_items")

shadow_items.default <- function(x, ...) {
  refuse(sprintf("shadow_items: an object of class %s; give a data frame of item parameters", paste(class(x), collapse = ", ")))
}

shadow_items.data.frame <- function(x, ...) {
  if (!nrow(x)) refuse("shadow_items: the data frame has no item")
  label <- which(tolower(names(x)) %in% c("id", "item", "name"))
  if (length(label)) names(x)[label[1]] <- "ID" else x <- data.frame(ID = rownames(x), x, check.names = FALSE, stringsAsFactors = FALSE)
  x$ID <- as.character(x$ID)
  twice <- x$ID[duplicated(x$ID)]
  if (length(twice)) refuse(sprintf("shadow_items: the ID %s is there twice", twice[1]))
  rownames(x) <- NULL
  x
}

shadow_items.matrix <- function(x, ...) {
  if (is.null(rownames(x)) || is.null(colnames(x))) refuse("shadow_items: the matrix needs names of its rows and columns")
  shadow_items(as.data.frame(x, stringsAsFactors = FALSE))
}

# psych: P = Phi(a theta - d), with d its difficulty tau / sqrt(1 - loading^2). So b = d / a, and D is 1.702 for the logistic function.
shadow_items.irt.fa <- function(x, ...) {
  slope <- as.matrix(x$irt$discrimination)
  if (ncol(slope) != 1) refuse(sprintf("shadow_items: the model has %d factors; fit one", ncol(slope)))
  places <- as.matrix(x$irt$difficulty[[1]])
  reversed <- rownames(slope)[slope[, 1] <= 0]
  if (length(reversed)) refuse(sprintf("shadow_items: item %s has no positive slope (is its scoring reversed?)", reversed[1]))
  model <- if (ncol(places) == 1) "2PL" else "GR"
  parameter_frame(rownames(slope), model, unname(cbind(slope[, 1], places / slope[, 1])))
}

shadow_items.rasch <- function(x, ...) of_dichotomous(coef(x))
shadow_items.ltm <- function(x, ...) of_dichotomous(coef(x))
shadow_items.tpm <- function(x, ...) of_dichotomous(coef(x))
shadow_items.grm <- function(x, ...) of_steps(coef(x), "GR")
shadow_items.gpcm <- function(x, ...) of_steps(coef(x), "GPC")

# The coefficients that ltm prints for rasch, ltm and tpm.
of_dichotomous <- function(found) {
  need <- c("Dffclt", "Dscrmn")
  lacks <- setdiff(need, colnames(found))
  if (length(lacks)) refuse(sprintf("shadow_items: the coefficients have no column %s", lacks[1]))
  guess <- "Gussng" %in% colnames(found)
  parameters <- cbind(found[, "Dscrmn"], found[, "Dffclt"], if (guess) found[, "Gussng"])
  parameter_frame(rownames(found), if (guess) "3PL" else "2PL", unname(parameters))
}

# The coefficients of grm and gpcm: a matrix, or a list where the numbers of categories differ. The slope is the last.
of_steps <- function(found, model) {
  if (is.matrix(found)) found <- apply(found, 1, function(row) row, simplify = FALSE)
  slopes <- vapply(found, function(one) one[["Dscrmn"]], 0)
  steps <- lapply(found, function(one) unname(one[names(one) != "Dscrmn"]))
  most <- max(lengths(steps))
  parameters <- t(vapply(steps, function(one) c(one, rep(NA_real_, most - length(one))), numeric(most)))
  if (most == 1) parameters <- t(parameters)
  parameter_frame(names(found), model, unname(cbind(slopes, parameters)))
}

parameter_frame <- function(names, model, parameters) {
  colnames(parameters) <- paste0("PAR", seq_len(ncol(parameters)))
  shadow_items(data.frame(ID = names, MODEL = model, parameters, row.names = NULL, stringsAsFactors = FALSE))
}
