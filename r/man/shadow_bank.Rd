\name{shadow_bank}
\alias{shadow_bank}
\title{Bank and plan of an examination}
\description{Makes bank, plan and map by the command \code{shadow bank}.}
\usage{
shadow_bank(items, attributes = NULL, constraints = NULL, length = NULL,
            out = tempfile("exam"), D = 1, grid = NULL, prior = c(0, 1),
            rate = NULL, bands = NULL, key = NULL, quantities = character(),
            model = NULL)
}
\arguments{
  \item{items}{what \code{\link{shadow_items}} takes.}
  \item{attributes, constraints}{data frames in the form that the guide of the project describes.}
  \item{length}{the number of items of a test, where there are no constraints.}
  \item{out}{the path of the files without their ends. They are \code{.bank.csv}, \code{.plan.txt}
    and \code{.map.json}.}
  \item{D}{the constant of the calibration: 1, or 1.702 for the metric of the normal ogive.}
  \item{grid}{the lowest and the highest ability and the number of points.}
  \item{prior}{mean and standard deviation of ability, or \code{"flat"}.}
  \item{rate, key, bands}{exposure control: two whole numbers, 64 hexadecimal digits, and the number of bands.
    The rate is a share of the tests, and with bands a share of the visits of a band.}
  \item{quantities}{names of attributes that become quantities.}
  \item{model}{\code{"GR"}, \code{"GPC"} or \code{"PC"}, for thresholds without a column \code{MODEL}.}
}
\details{
  The command is found by the environment variable \code{SHADOW} (the path of \code{tools/shadow.py}), or as
  \code{shadow} on the path. A path that ends in \code{.py} is run by \code{SHADOW_PYTHON}, by default
  \code{python3}. The program \code{shadowd} is found by \code{SHADOWD}.

  Warnings of the command are warnings in R. A refusal is an error of class \code{shadow_refused} with the
  command's lines in \code{lines} and its exit status in \code{status}; nothing is written then.
}
\value{A list of class \code{shadow_exam}: the paths \code{prefix}, \code{bank} and \code{plan}, the \code{map} as a list, the
  lines that were printed in \code{said}, and \code{warnings}.}
\examples{
\dontrun{
items <- data.frame(ID = paste0("V", 1:20), a = 1, b = seq(-2, 2, length.out = 20))
exam <- shadow_bank(items, length = 5)
}
}
