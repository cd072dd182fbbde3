# Bank, plan and map of an examination, by `shadow bank`.

shadow_bank <- function(items, attributes = NULL, constraints = NULL, length = NULL, out = tempfile("exam"), D = 1, grid = NULL,
                        prior = c(0, 1), rate = NULL, bands = NULL, key = NULL, quantities = character(), model = NULL) {
  folder <- tempfile("tables")
  dir.create(folder)
  on.exit(unlink(folder, recursive = TRUE))
  tables <- list(items = shadow_items(items), attributes = attributes, constraints = constraints)
  words <- c("bank", "--out", out)
  for (name in names(tables)[!vapply(tables, is.null, NA)]) {
    path <- file.path(folder, paste0(name, ".csv"))
    write_table(tables[[name]], path)
    words <- c(words, paste0("--", name), path)
  }
  words <- c(words, option_words("length", length), option_words("scaling", D), option_words("grid", grid), option_words("prior", prior),
             option_words("rate", rate), option_words("bands", bands), option_words("key", key), option_words("model", model))
  for (quantity in quantities) words <- c(words, "--quantity", quantity)
  said <- run_shadow(words)
  exam_of(out, said$out, said$warnings)
}

exam_of <- function(prefix, said = character(), warnings = character()) {
  structure(class = "shadow_exam", list(
    prefix = prefix, bank = paste0(prefix, ".bank.csv"), plan = paste0(prefix, ".plan.txt"), map = read_map(paste0(prefix, ".map.json")),
    said = said, warnings = warnings
  ))
}

read_map <- function(path) {
  if (!file.exists(path)) refuse(sprintf("%s: no such file", path))
  jsonlite::fromJSON(path, simplifyDataFrame = FALSE)
}

item_names <- function(map) vapply(map$items, function(item) item$id, "")

# The numbers of items in the bank, from 0, of numbers or of IDs.
item_numbers <- function(items, names) {
  numbers <- if (is.character(items)) match(items, names) - 1 else items
  wrong <- is.na(numbers) | numbers < 0 | numbers >= length(names) | numbers != round(numbers)
  if (any(wrong)) refuse(sprintf("item %s: the bank has no such item", items[wrong][1]))
  numbers
}

print.shadow_exam <- function(x, ...) {
  cat(sprintf("examination %s: %d items, tests of %d\n", x$prefix, length(x$map$items), x$map$length))
  cat(x$said, sep = "\n")
  invisible(x)
}
