module Priced
  CURRENCY = "EUR"
end

class Item
  include Priced
end
