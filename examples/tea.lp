tea :- water, leaves.
water :- kettle.
kettle.
leaves :- shop.
leaves :- garden.
garden.
shop.
