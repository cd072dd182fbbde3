\name{shadow_items}
\alias{shadow_items}
\alias{shadow_items.data.frame}
\alias{shadow_items.default}
\alias{shadow_items.gpcm}
\alias{shadow_items.grm}
\alias{shadow_items.irt.fa}
\alias{shadow_items.ltm}
\alias{shadow_items.matrix}
\alias{shadow_items.rasch}
\alias{shadow_items.tpm}
\title{Item parameters as a table}
\description{Gives a data frame of item parameters that \code{\link{shadow_bank}} takes.}
\usage{
shadow_items(x, ...)
}
\arguments{
  \item{x}{a data frame of item parameters; the matrix \code{coef(model, simplify = TRUE)$items} of
    \pkg{mirt}; a model of \code{irt.fa} of \pkg{psych}; or a model of class \code{ltm},
    \code{rasch}, \code{tpm}, \code{grm} or \code{gpcm} of \pkg{ltm}.}
  \item{\dots}{not used.}
}
\details{
  A data frame may have any convention of columns that the guide of the project lists. Its column
  \code{ID} (or \code{id}, \code{item}, \code{name}) has the names of the items; without one they are
  the names of the rows.

  A model of \code{irt.fa} has the metric of the normal ogive: give \code{D = 1.702} to \code{\link{shadow_bank}}.
  Its difficulty is tau / sqrt(1 - loading^2), which is an intercept. So b is difficulty divided by
  discrimination; a test fits simulated answers and gets their b back. The curves that \pkg{psych} draws with
  \code{type = "ICC"} have the intercept as their place, and are others. A model with more than one factor is refused.

  The coefficients of \pkg{mirt} and \pkg{ltm} are read by the names that their manuals have. It was
  tried with tables made by hand, and not with the packages.
}
\value{A data frame with a column \code{ID}, which is a character.}
\examples{
shadow_items(data.frame(ID = c("V1", "V2"), a = c(1.2, 0.8), b = c(-0.5, 0.7)))
}
