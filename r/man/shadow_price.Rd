\name{shadow_price}
\alias{shadow_price}
\title{The price of each rule}
\description{Gives what each row of the table of constraints costs in information, by the command \code{shadow report --prices}.}
\usage{
shadow_price(exam, at = NULL, write = FALSE)
}
\arguments{
  \item{exam}{an examination of \code{\link{shadow_bank}}.}
  \item{at}{abilities; \code{NULL} for the mean of the plan's prior, and one and two of its deviations on both sides. The nearest points
    of the grid are taken.}
  \item{write}{whether the gain of one more item is computed too, which takes the most time.}
}
\details{
  A price is what the best form at an ability would inform more without the rule. \code{least} and \code{greatest} are equal where both
  forms are proved best; else the price is between the two. Prices of single rules do not add up to that of all.
}
\value{A data frame with columns \code{rule}, \code{at}, \code{least} and \code{greatest}. The first rows, \code{"best form"}, have what the best form
  informs; then come \code{"all rules together"}, and each row of the table. With \code{write} the attribute \code{write} is a
  data frame of the gains: \code{kind}, \code{difficulty}, \code{mean}, \code{at}, \code{least}, \code{greatest}.}
\examples{
\dontrun{
prices <- shadow_price(exam, at = c(-1, 0, 1))
prices[prices$at == 0, ]
}
}
