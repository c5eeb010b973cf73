"""Defines what a family of laws of demand is: a class with its fit, its predictive law and draws of its members.

A law is an array of chances: those of 0, 1, 2 and so on. All figures are rounded and unproved.
"""
from __future__ import annotations

import math
from abc import ABC, abstractmethod
from typing import Any, NamedTuple

import numpy as np

from ..chances import DEMANDS, LEAST_TAIL, Floats, Whole, cut
from ..formats import MOST_DEMAND
from .sample import Sample

Parameters = tuple[
    Any, ...
]  # of a family: numbers of a member, or columns with one for each of several
UNIFORMS = 5  # columns of uniform numbers, at most, for members
LEAST_CHANCE = 1e-300  # in place of 0, whose logarithm is not finite
FIRST_WIDTH = 128  # of drawn laws; ever more until all but a tail is there


class Fit(NamedTuple):
    """The member of a family with the greatest likelihood, with the logarithm of that and the Bayesian information
    criterion (Schwarz, Estimating the dimension of a model, 1978)."""

    family: Family
    member: Parameters
    log_likelihood: float
    bic: float

    def law(self, most: int) -> Floats:
        """Returns the law of the member, without the end of its tail. `most` is the largest number that was seen."""
        return cut(self.family.laws(self.member, most)[0])


class Family(ABC):
    """A family of laws: how it is fitted, what it says of the next period, and how its members are drawn.

    It has `chances` or `logarithms`, each of which is made of the other. The priors of the predictive law and of the
    draws are the same, so the mean of many drawn members is that law.
    """

    @property
    @abstractmethod
    def name(self) -> str:
        """Returns the name of the family, by which a method asks for it."""

    @abstractmethod
    def likeliest(self, sample: Sample) -> Parameters | None:
        """Returns the member with the greatest likelihood; None if the sample does not allow the family."""

    @abstractmethod
    def predictive(self, sample: Sample, ends: Whole) -> Floats:
        """Returns the posterior predictive law of cells: with the doubt about the parameters, from a weak prior of them.
        Its sum may be below 1 by the chance of numbers beyond the cells."""

    @abstractmethod
    def drawn(
        self, sample: Sample, uniform: Floats, counted: float = 1.0
    ) -> Parameters:
        """Draws members from the posterior law of their parameters.

        `uniform` has columns of uniform numbers, with one for each member. Each number of the sample counts as
        `counted` numbers: 1 for the posterior, less for a coarsened one.
        """

    def chances(self, values: Whole, *parameters: Any) -> Floats:
        """Returns the chances of values: of a member, or a row for each if parameters are columns."""
        return np.exp(self.logarithms(values, *parameters))

    def logarithms(self, values: Whole, *parameters: Any) -> Floats:
        """Returns the logarithms of `chances`."""
        return np.asarray(
            np.log(np.maximum(self.chances(values, *parameters), LEAST_CHANCE))
        )

    def fit(self, sample: Sample) -> Fit | None:
        """Returns the likeliest member. If the first parameter is a share of 0, it is none."""
        member = self.likeliest(sample)
        if member is None:
            return None
        likelihood = float(sample.counts @ self.logarithms(sample.values, *member))
        return Fit(
            self,
            member,
            likelihood,
            (len(member) - (member[0] == 0)) * math.log(sample.size) - 2 * likelihood,
        )

    def laws(self, parameters: Parameters, most: int) -> Floats:
        """Returns a row of chances of 0, 1, 2 and so on for each member, without the end of the tail. `most` is the
        largest number that was seen."""
        columns = [np.reshape(parameter, (-1, 1)) for parameter in parameters]
        width = max(FIRST_WIDTH, 2 * most)
        while True:
            chances = self.chances(DEMANDS[:width], *columns)
            total = chances.sum(axis=1, keepdims=True)
            if width > MOST_DEMAND or total.min() > 1 - LEAST_TAIL:
                return np.asarray(chances / total)
            width *= 2
